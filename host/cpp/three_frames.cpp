// A wall seen from three frames: its plane by Eigen's SelfAdjointEigenSolver, and the blocks that the library adds to a Hessian
// and a gradient, checked against the rows that it gives for the same wall: H = JᵀJ, g = Jᵀr and cost = rᵀr, within rounding;
// and the same factor built by the survey rule.
#include "wall.hpp"

namespace {

// How far apart two matrices are, as a part of the larger one's size.
template <typename A, typename B> double apart(const A &a, const B &b) {
    return (a - b).cwiseAbs().maxCoeff() / b.cwiseAbs().maxCoeff();
}

// A factor by the survey rule is the one that the constructor builds, unless the fixed set has a negative count.
void survey_rule(const maghnelt::FrameFactor &factor, const maghnelt::MomentsList &own, maghnelt::MomentsList fixed) {
    const maghnelt::FrameFactor strict = maghnelt::FrameFactor::build_strict(dof, own, fixed, sigma);
    expect(strict.points() == factor.points(), "a strict build has the same points");
    expect(strict.frames() == factor.frames() && strict.fixed() == factor.fixed(), "and the same centred frames and fixed set");

    fixed(0, 0) = -1;
    expect(refused([&] { maghnelt::FrameFactor::build_strict(dof, own, fixed, sigma); }) == 13, "a negative fixed count is reason 13");
    expect(maghnelt::FrameFactor(dof, own, fixed, sigma).fixed().cols() == 0, "which the constructor drops");
    fixed(0, 0) = 0;
    expect(maghnelt::FrameFactor::build_strict(dof, own, fixed, sigma).fixed().cols() == 0, "a set without points is dropped");
}

} // namespace

int main() {
    const Pose poses[] = {pose(0.3, 1.0, 0.5), pose(-0.2, 2.5, 1.0), pose(0.1, 4.0, 0.8)};
    // The poses are some millimetres off what the scanner saw, which is what an adjustment has to find.
    const Pose guesses[] = {pose(0.302, 1.004, 0.503), pose(-0.201, 2.494, 0.998), pose(0.1, 4.001, 0.806)};

    maghnelt::MomentsList own(MAGHNELT_MOMENTS, 3);
    maghnelt::Actions actions(MAGHNELT_ACTION, 3);
    for (int f = 0; f < 3; ++f) {
        const maghnelt::Points seen = poses[f].rotation.transpose() * (wall(200 + 50 * f, f).colwise() - poses[f].shift);
        own.col(f) = maghnelt::Moments::from_points(seen).record();
        actions.col(f) = maghnelt::Action::rigid(guesses[f].rotation, guesses[f].shift).record();
    }
    const maghnelt::MomentsList fixed = maghnelt::Moments::from_points(wall(100, 2.0)).record();

    const maghnelt::FrameFactor factor(dof, own, fixed, sigma);
    const maghnelt::MeanAndScatter fit = factor.fit(actions);
    const maghnelt::Decomposition fitted = maghnelt::Decomposition::of(fit.scatter);
    const Eigen::Vector3d normal = fitted.vectors().col(0);
    std::printf("A wall of %.0f points in three frames and a fixed set: normal (%.4f, %.4f, %.4f), %.3f m from the origin\n",
                factor.points(), normal[0], normal[1], normal[2], std::abs(normal.dot(fit.mean)));
    expect(std::abs(normal[1]) > 0.999, "the wall's normal is along y");

    Eigen::MatrixXd hessian = Eigen::MatrixXd::Zero(18, 18);
    Eigen::VectorXd gradient = Eigen::VectorXd::Zero(18);
    const maghnelt::BlockMap map({0, 6, 12});
    const double cost = factor.accumulate(actions, fitted, map, hessian, gradient);
    const auto [residual, jacobian] = factor.linearize(actions, fitted);

    const double parts[] = {
        apart(hessian, jacobian.transpose() * jacobian),
        apart(gradient, jacobian.transpose() * residual),
        std::abs(cost - residual.squaredNorm()) / cost,
    };
    std::printf("H and JtJ differ by %.1e of their size, g and Jtr by %.1e, cost and rtr by %.1e\n", parts[0], parts[1], parts[2]);
    expect(parts[0] < 1e-12 && parts[1] < 1e-9 && parts[2] < 1e-9, "what accumulate adds is what the rows of linearize sum to");

    // A frame that the map leaves out costs, and writes nothing.
    Eigen::MatrixXd none(0, 0);
    Eigen::VectorXd empty(0);
    expect(factor.accumulate(actions, fitted, maghnelt::BlockMap(), none, empty) == cost, "the cost alone may be asked for");

    expect(refused([&] { maghnelt::FrameFactor(dof, own, fixed, 0.0); }) == 7, "a sigma of 0 is reason 7");
    survey_rule(factor, own, fixed);
    return 0;
}
