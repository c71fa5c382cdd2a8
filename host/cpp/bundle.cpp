// A wall seen from three frames, point by point: its plane by Eigen's SelfAdjointEigenSolver, a residual and a row of the Jacobian
// for each point, and what they sum to against what the moments of the same points add: JᵀJ = H, Jᵀr = g and rᵀr = cost, within
// rounding.
#include "wall.hpp"

#include <limits>

namespace {

// The derivatives (R, -R [p]x) of each point p by a step of its pose, a shift and then a turn, both in the frame's own axes.
maghnelt::Points derivatives(const Pose &at, const maghnelt::Points &seen) {
    maghnelt::Points columns(3, dof * seen.cols());
    for (Eigen::Index k = 0; k < seen.cols(); ++k) {
        auto own = columns.middleCols<dof>(dof * k);
        own.leftCols<3>() = at.rotation;
        for (Eigen::Index c = 0; c < 3; ++c) {
            own.col(3 + c) = at.rotation * Eigen::Vector3d::Unit(c).cross(seen.col(k));
        }
    }
    return columns;
}

// The corners of a square on the floor and a point above it.
void corners() {
    maghnelt::Points square(3, 4);
    square << 0, 2, 0, 2, //
        0, 0, 2, 2,       //
        0, 0, 0, 0;
    maghnelt::Bundle bundle(0);
    bundle.add_frame(square, maghnelt::Points(3, 0));
    bundle.add_fixed(Eigen::Vector3d(1, 1, 5));
    const maghnelt::MeanAndScatter fit = bundle.fit();
    expect(fit.mean == Eigen::Vector3d(1, 1, 1), "centroid of corners and a fixed point");
    expect(fit.scatter == Eigen::Matrix3d(Eigen::Vector3d(0.8, 0.8, 4).asDiagonal()), "their scatter, divided by their number");

    const maghnelt::Decomposition fitted(Eigen::Vector3d(1, 1, 0), Eigen::Matrix3d::Identity());
    Eigen::VectorXd heights(5);
    heights << -2, -2, -2, -2, 8;
    expect(bundle.residual(0.5, fitted) == heights, "heights over sigma, the fixed point last");
    const maghnelt::Decomposition none(Eigen::Vector3d(1, 1, 1), Eigen::Matrix3d::Identity());
    expect(bundle.residual(0.5, none) == Eigen::VectorXd::Zero(5), "without a plane all are zeros");

    expect(refused([&] { bundle.residual(0.0, fitted); }) == 7, "a sigma of 0 is reason 7");
    expect(refused([] { maghnelt::Bundle(6).fit(); }) == 2, "no frame is reason 2");
    expect(refused([&] { maghnelt::Bundle(10).linearize(0.0, fitted); }) == 1, "dof 10 is reason 1");
    expect(refused([&] { maghnelt::Bundle(6).add_frame(square, square); }) == 3, "columns that are too few are reason 3");
    bundle.add_frame(maghnelt::Points(3, 0), maghnelt::Points(3, 0));
    expect(refused([&] { bundle.fit(); }) == 4, "a frame without points is reason 4");
    bundle.add_fixed(maghnelt::Points::Zero(3, MAGHNELT_MAX_POINTS));
    expect(refused([&] { bundle.linearize(0.5, fitted); }) == 3, "too many points are reason 3");
}

} // namespace

int main() {
    corners();

    const Pose poses[] = {pose(0.3, 1.0, 0.5), pose(-0.2, 2.5, 1.0), pose(0.1, 4.0, 0.8)};
    // The poses are some millimetres off what the scanner saw, which is what an adjustment has to find.
    const Pose guesses[] = {pose(0.302, 1.004, 0.503), pose(-0.201, 2.494, 0.998), pose(0.1, 4.001, 0.806)};

    maghnelt::Bundle bundle(dof);
    maghnelt::MomentsList own(MAGHNELT_MOMENTS, 3);
    maghnelt::Actions actions(MAGHNELT_ACTION, 3);
    double squares = 0.0;
    for (int f = 0; f < 3; ++f) {
        const maghnelt::Points seen = poses[f].rotation.transpose() * (wall(200 + 50 * f, f).colwise() - poses[f].shift);
        own.col(f) = maghnelt::Moments::from_points(seen).record();
        actions.col(f) = maghnelt::Action::rigid(guesses[f].rotation, guesses[f].shift).record();
        const maghnelt::Points in_site = (guesses[f].rotation * seen).colwise() + guesses[f].shift;
        bundle.add_frame(in_site, derivatives(guesses[f], seen));
        squares += seen.squaredNorm() + in_site.squaredNorm();
    }
    const maghnelt::Points known = wall(100, 2.0);
    bundle.add_fixed(known);
    squares += known.squaredNorm();

    const maghnelt::Decomposition fitted = maghnelt::Decomposition::of(bundle.fit().scatter);
    const auto [residual, jacobian] = bundle.linearize(sigma, fitted);
    std::printf("A wall of %d points: normal (%.4f, %.4f, %.4f), its points %.2f mm off it\n", static_cast<int>(bundle.rows()),
                fitted.vectors()(0, 0), fitted.vectors()(1, 0), fitted.vectors()(2, 0),
                1000.0 * sigma * std::sqrt(residual.squaredNorm() / static_cast<double>(bundle.rows())));
    expect(bundle.residual(sigma, fitted) == residual, "residuals alone are the same");
    expect(jacobian.bottomRows(100).isZero(0.0) && jacobian.topRightCorner(200, 12).isZero(0.0), "zeros beside a frame's own columns");

    const maghnelt::FrameFactor factor(dof, own, maghnelt::Moments::from_points(known).record(), sigma);
    Eigen::MatrixXd hessian = Eigen::MatrixXd::Zero(18, 18);
    Eigen::VectorXd gradient = Eigen::VectorXd::Zero(18);
    const maghnelt::Decomposition by_moments = maghnelt::Decomposition::of(factor.fit(actions).scatter);
    const double cost = factor.accumulate(actions, by_moments, maghnelt::BlockMap({0, 6, 12}), hessian, gradient);

    // All these numbers sum up products of two coordinates of a point over sigma squared, and a sum of so many rounded terms is off
    // by that many epsilons of their sizes at the worst.
    const double most = static_cast<double>(bundle.rows()) * std::numeric_limits<double>::epsilon() * squares / (sigma * sigma);
    const double apart[] = {
        (jacobian.transpose() * jacobian - hessian).cwiseAbs().maxCoeff(),
        (jacobian.transpose() * residual - gradient).cwiseAbs().maxCoeff(),
        std::abs(residual.squaredNorm() - cost),
    };
    std::printf("JtJ and H of the moments differ by %.1e, Jtr and g by %.1e, rtr and cost by %.1e; by rounding they may by %.1e\n",
                apart[0], apart[1], apart[2], most);
    expect(apart[0] <= most && apart[1] <= most && apart[2] <= most, "the rows of points sum to what their moments add");
    // A point costs 1 where it is sigma off.
    expect(most < 0.5, "one point more or less would be seen");
    return 0;
}
