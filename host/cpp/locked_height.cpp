// A scanner on a tripod whose height was measured, on a map whose floor lies five centimetres too high: where its pose is found freely,
// and with the height locked by a transform of six rows and five columns. What is added is checked against the rows of the same matches
// and, for three frames of a wall, against the blocks without a transform.
#include "wall.hpp"

#include <Eigen/Cholesky>

#include <limits>

namespace {

constexpr double floor_error = 0.05;
constexpr double epsilon = std::numeric_limits<double>::epsilon();

// Points of the floor and of two walls as the scanner sees them from a pose, matched with the map's planes.
maghnelt::Matches seen_from(const Pose &stood) {
    const maghnelt::Plane planes[] = {
        maghnelt::Plane::of(Eigen::Vector3d(0, 0, 1), 0.0),
        maghnelt::Plane::of(Eigen::Vector3d(0, 1, 0), -5.0),
        maghnelt::Plane::of(Eigen::Vector3d(-1, -1, 0), 6.0),
    };
    maghnelt::Matches matches(MAGHNELT_MATCH, 300);
    for (Eigen::Index k = 0; k < matches.cols(); ++k) {
        const auto spread = [k](double step) { return 2.0 * std::fmod(static_cast<double>(k) * step, 1.0) - 1.0; };
        const maghnelt::Plane &plane = planes[k % 3];
        const Eigen::Vector3d somewhere(4.0 * spread(0.754877), 4.0 * spread(0.569840), 2.0 * spread(0.430160));
        const Eigen::Vector3d on_plane = somewhere - (plane.normal.dot(somewhere) + plane.offset) * plane.normal;
        const double off = k % 3 == 0 ? floor_error : 0.0;
        matches.col(k) << stood.rotation.transpose() * (on_plane - stood.shift), plane.normal, plane.offset - off, sigma;
    }
    return matches;
}

// The rows narrowed by T sum to what was added. Each number sums so many products, which are off by as many epsilons of their sizes at
// the worst.
void check(const maghnelt::Rows &rows, const Eigen::MatrixXd &t, const Eigen::MatrixXd &hessian, const Eigen::VectorXd &gradient) {
    const Eigen::MatrixXd narrow = rows.jacobian * t;
    const double roundings = epsilon * static_cast<double>(rows.residual.size() + 2 * dof);
    const double squares = rows.jacobian.squaredNorm() * t.squaredNorm();
    const double slope = rows.jacobian.norm() * t.norm() * rows.residual.norm();
    expect((hessian - narrow.transpose() * narrow).cwiseAbs().maxCoeff() <= roundings * squares, "H = (JT)t(JT)");
    expect((gradient - narrow.transpose() * rows.residual).cwiseAbs().maxCoeff() <= roundings * slope, "g = (JT)tr");
}

// Where Gauss-Newton ends from a pose on.
Pose adjusted(const maghnelt::Matches &matches, Pose at, bool locked) {
    for (int step = 0; step < 10; ++step) {
        const maghnelt::Action action = maghnelt::Action::rigid(at.rotation, at.shift);
        // T is the identity for a pose that is free. A locked height belongs to the present rotation.
        const Eigen::MatrixXd t = locked ? Eigen::MatrixXd(maghnelt::locked_height(at.rotation)) : Eigen::MatrixXd::Identity(dof, dof);
        Eigen::MatrixXd hessian = Eigen::MatrixXd::Zero(t.cols(), t.cols());
        Eigen::VectorXd gradient = Eigen::VectorXd::Zero(t.cols());
        maghnelt::matches_accumulate_transformed(dof, matches, action, maghnelt::BlockMap({0}), maghnelt::Transforms({t}), hessian,
                                                 gradient);
        check(maghnelt::matches_linearize(dof, matches, action), t, hessian, gradient);

        const Eigen::VectorXd move = t * hessian.ldlt().solve(-gradient);
        const Eigen::Vector3d about = move.tail<3>();
        at.shift += at.rotation * move.head<3>();
        if (about.norm() > 0) {
            at.rotation = at.rotation * Eigen::AngleAxisd(about.norm(), about.normalized()).toRotationMatrix();
        }
    }
    return at;
}

// A wall from three frames, the height of the second of which is locked: its block is five rows wide, and the third begins at row 11.
void three_frames() {
    const Pose poses[] = {pose(0.3, 1.0, 0.5), pose(-0.2, 2.5, 1.0), pose(0.1, 4.0, 0.8)};
    maghnelt::MomentsList own(MAGHNELT_MOMENTS, 3);
    maghnelt::Actions actions(MAGHNELT_ACTION, 3);
    for (int f = 0; f < 3; ++f) {
        const maghnelt::Points seen = poses[f].rotation.transpose() * (wall(200, f).colwise() - poses[f].shift);
        own.col(f) = maghnelt::Moments::from_points(seen).record();
        actions.col(f) = maghnelt::Action::rigid(poses[f].rotation, poses[f].shift).record();
    }
    const maghnelt::FrameFactor factor(dof, own, maghnelt::MomentsList(MAGHNELT_MOMENTS, 0), sigma);
    const maghnelt::Decomposition fitted = maghnelt::Decomposition::of(factor.fit(actions).scatter);

    Eigen::MatrixXd free = Eigen::MatrixXd::Zero(18, 18);
    Eigen::VectorXd free_gradient = Eigen::VectorXd::Zero(18);
    const double cost = factor.accumulate(actions, fitted, maghnelt::BlockMap({0, 6, 12}), free, free_gradient);

    const Eigen::MatrixXd t = maghnelt::locked_height(poses[1].rotation);
    const maghnelt::Transforms transforms({std::nullopt, t, std::nullopt});
    const maghnelt::BlockMap map({0, 6, 11});
    expect(transforms.width(dof, 0) == 6 && transforms.width(dof, 1) == 5, "a segment is as wide as its transform");
    Eigen::MatrixXd hessian = Eigen::MatrixXd::Zero(17, 17);
    Eigen::VectorXd gradient = Eigen::VectorXd::Zero(17);
    expect(factor.accumulate_transformed(actions, fitted, map, transforms, hessian, gradient) == cost, "the cost is the same");

    const Eigen::MatrixXd narrow = t.transpose() * free.block<6, 6>(6, 6) * t;
    const double most = 2.0 * dof * epsilon * free.norm() * t.squaredNorm();
    expect((hessian.block<5, 5>(6, 6) - narrow).cwiseAbs().maxCoeff() <= most, "the second block is between T");
    expect(hessian.topLeftCorner<6, 6>() == free.topLeftCorner<6, 6>(), "the first block is as it was");
    expect(hessian.bottomRightCorner<6, 6>() == free.bottomRightCorner<6, 6>(), "and so is the third, from row 11 on");
    expect(gradient.tail<6>() == free_gradient.tail<6>(), "with its part of the gradient");

    const maghnelt::BlockMap wide({0, 6, 12});
    expect(refused([&] { factor.accumulate_transformed(actions, fitted, wide, transforms, hessian, gradient); }) == 10,
           "offsets as without a transform need 18 rows");
    const maghnelt::Transforms bad({std::nullopt, std::nullopt, Eigen::MatrixXd::Identity(5, 5)});
    expect(refused([&] { factor.accumulate_transformed(actions, fitted, map, bad, hessian, gradient); }) == 14, "five rows are reason 14");
}

// What lies beside a map, on matrices of small whole numbers.
void further() {
    Eigen::MatrixXd old(3, 1);
    old << 1, 10, 100;
    Eigen::MatrixXd left(2, 3);
    left << 1, 3, 5, //
        2, 4, 6;
    const maghnelt::BlockMap map({0, 5});
    const maghnelt::Transforms both = maghnelt::Transforms({old, std::nullopt}).transformed(2, map, 0, left);
    expect(both.transform(0) == Eigen::MatrixXd(Eigen::Vector2d(531, 642)), "a further transform multiplies from the left");
    expect(!both.transform(1) && !both.transform(2), "no other word has one");
    expect(maghnelt::Transforms().transformed(2, map, 1, left).transform(1) == left, "a first transform is taken as it is");
    expect(refused([&] { maghnelt::Transforms({old, std::nullopt}).transformed(2, map, 0, left.leftCols(2)); }) == 14,
           "two columns over three rows are reason 14");
    expect(refused([] { maghnelt::Transforms({Eigen::MatrixXd::Zero(6, 10)}); }) == 14, "ten columns are reason 14");
    expect(refused([] { maghnelt::Transforms({Eigen::MatrixXd::Zero(10, 6)}); }) == 14, "and so are ten rows");
}

} // namespace

int main() {
    const Pose stood = pose(0.4, 1.0, 2.0);
    const Pose guess = pose(0.38, 0.95, 2.04);
    const maghnelt::Matches matches = seen_from(stood);
    const double free = adjusted(matches, guess, false).shift.z() - stood.shift.z();
    const double locked = adjusted(matches, guess, true).shift.z() - stood.shift.z();
    std::printf("A floor that is mapped %.0f mm too high lifts a free scanner by %.3f mm and one with a locked height by %.3f mm\n",
                1000.0 * floor_error, 1000.0 * free, 1000.0 * std::abs(locked));
    expect(std::abs(free - floor_error) < 1e-9, "a free pose goes up with the map's floor");
    // Ten steps of some centimetres, each rounded.
    expect(std::abs(locked) < 1e-14, "a locked height stays");
    three_frames();
    further();
    return 0;
}
