// A scan against a map: points matched with three known planes, and the pose found by Gauss-Newton. What is added to the Hessian and
// the gradient is checked against the rows of the same matches at every step.
#include <maghnelt.hpp>

#include <Eigen/Cholesky>
#include <Eigen/Geometry>

#include <cmath>
#include <cstdio>
#include <cstdlib>

namespace {

constexpr std::uint32_t dof = 6;
constexpr double sigma = 0.002;

void expect(bool holds, const char *what) {
    if (!holds) {
        std::printf("FAILED: %s\n", what);
        std::exit(1);
    }
}

} // namespace

int main() {
    const maghnelt::Plane planes[] = {
        maghnelt::Plane::of(Eigen::Vector3d(0, 0, 1), 0.0),
        maghnelt::Plane::of(Eigen::Vector3d(0, 2, 0), -10.0),
        maghnelt::Plane::of(Eigen::Vector3d(-1, -1, 0), 6.0),
    };
    const Eigen::Matrix3d turned = Eigen::AngleAxisd(0.4, Eigen::Vector3d(0.1, -0.2, 1.0).normalized()).toRotationMatrix();
    const Eigen::Vector3d stood(1.0, 2.0, 1.5);

    // More than one group of 512, spread the same on every run.
    maghnelt::Matches matches(MAGHNELT_MATCH, 900);
    for (Eigen::Index k = 0; k < matches.cols(); ++k) {
        const auto spread = [k](double step) { return 2.0 * std::fmod(static_cast<double>(k) * step, 1.0) - 1.0; };
        const maghnelt::Plane &plane = planes[k % 3];
        const Eigen::Vector3d somewhere(4.0 * spread(0.754877), 4.0 * spread(0.569840), 2.0 * spread(0.430160));
        const double off = plane.normal.dot(somewhere) + plane.offset;
        const Eigen::Vector3d on_plane = somewhere - (off - sigma * spread(0.618034)) * plane.normal;
        matches.col(k) << turned.transpose() * (on_plane - stood), plane.normal, plane.offset, sigma;
    }

    Eigen::Matrix3d rotation = Eigen::Matrix3d::Identity();
    Eigen::Vector3d shift(0.7, 2.2, 1.4);
    double cost = 0.0;
    for (int step = 0; step < 8; ++step) {
        const maghnelt::Action action = maghnelt::Action::rigid(rotation, shift);
        Eigen::MatrixXd hessian = Eigen::MatrixXd::Zero(dof, dof);
        Eigen::VectorXd gradient = Eigen::VectorXd::Zero(dof);
        cost = maghnelt::matches_accumulate(dof, matches, action, maghnelt::BlockMap({0}), hessian, gradient);

        const auto [residual, jacobian] = maghnelt::matches_linearize(dof, matches, action);
        const Eigen::MatrixXd squares = jacobian.transpose() * jacobian;
        const Eigen::VectorXd slope = jacobian.transpose() * residual;
        expect((hessian - squares).cwiseAbs().maxCoeff() <= 1e-13 * squares.maxCoeff(), "H = JtJ");
        expect((gradient - slope).cwiseAbs().maxCoeff() <= 1e-13 * std::sqrt(squares.maxCoeff() * cost), "g = Jtr");
        expect(std::abs(cost - residual.squaredNorm()) <= 1e-12 * cost, "cost = rtr");

        const Eigen::VectorXd move = hessian.ldlt().solve(-gradient);
        const Eigen::Vector3d about = move.tail<3>();
        shift += rotation * move.head<3>();
        if (about.norm() > 0) {
            rotation = rotation * Eigen::AngleAxisd(about.norm(), about.normalized()).toRotationMatrix();
        }
    }
    std::printf("A pose from %d matches with three planes: %.2f mm off, cost %.1f\n", static_cast<int>(matches.cols()),
                1000.0 * (shift - stood).norm(), cost);

    // One match below a chain of two poses: the extrinsic columns take the normal by sigma first, which shows in the last bit.
    Eigen::Matrix<double, MAGHNELT_MATCH, 1> match;
    match << 0, 0, 0, 3, 3, 3, 0, 3;
    maghnelt::Matrix36 extrinsic = maghnelt::Matrix36::Zero();
    extrinsic.col(0) << 0.1, 0.2, 0.3;
    const maghnelt::MatchRow row = maghnelt::match_linearize(match, Eigen::Vector3d(1, 1, 1), Eigen::Matrix3d::Identity(), extrinsic);
    expect(row.residual == 3 && row.row.size() == 9 && row.row[3] == 0.6000000000000001, "one match below its chain");

    expect((shift - stood).norm() < 0.001 && cost < static_cast<double>(matches.cols()), "the pose is found");
    return 0;
}
