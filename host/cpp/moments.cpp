// A wall from its points through Eigen: its moments, its plane by SelfAdjointEigenSolver, the same wall moved, and what is refused.
#include <maghnelt.hpp>

#include <cmath>
#include <cstdio>
#include <cstdlib>

namespace {

void expect(bool holds, const char *what) {
    if (!holds) {
        std::printf("FAILED: %s\n", what);
        std::exit(1);
    }
}

} // namespace

int main() {
    maghnelt::Points corners(3, 4);
    corners << 0, 2, 0, 2, //
        5, 5, 5, 5,        //
        0, 0, 2, 2;
    maghnelt::Moments wall = maghnelt::Moments::from_points(corners);
    expect(wall.count() == 4 && wall.sum() == Eigen::Vector3d(4, 20, 4), "count and sum of corners");
    expect(wall.outer() == corners * corners.transpose(), "outer products of corners");

    const auto seen = wall.mean_and_scatter();
    expect(seen && seen->mean == Eigen::Vector3d(1, 5, 1), "mean of corners");
    const auto fitted = wall.plane(maghnelt::Decomposition::of(seen->scatter));
    expect(fitted && std::abs(fitted->plane.normal[1]) == 1 && std::abs(fitted->plane.offset) == 5, "plane of corners");

    const maghnelt::Moments lifted = wall.transformed(Eigen::Matrix3d::Identity(), Eigen::Vector3d(0, 0, 1));
    expect(lifted.mean_and_scatter()->mean == Eigen::Vector3d(1, 5, 2), "mean of lifted corners");
    wall.merge(wall);
    wall.push(Eigen::Vector3d(1, 5, 1));
    expect(wall.count() == 9, "a set merged with itself, and a point");
    expect(!maghnelt::Moments().mean_and_scatter(), "no points have no mean");
    expect(maghnelt::Moments::from_points(maghnelt::Points(3, 0)).count() == 0, "no points are the empty set");

    const maghnelt::BlockMap map({0, maghnelt::BlockMap::unmapped, 6});
    const std::vector<std::uint32_t> picked = map.remapped(maghnelt::BlockMap({2, 0, 9})).words();
    expect(picked == std::vector<std::uint32_t>{6, 0, maghnelt::BlockMap::unmapped}, "a map read through a list");
    expect(maghnelt::Plane::of(Eigen::Vector3d(0, 3, 4), 10).offset == 2, "a plane of a long normal");
    const double sigma =
        maghnelt::point_to_plane_sigma(maghnelt::Plane::of(Eigen::Vector3d::UnitZ(), 0), Eigen::Vector3d::Zero(), maghnelt::Matrix66::Zero(),
                                       4.0 * Eigen::Matrix3d::Identity(), Eigen::Vector3d(1, 2, 3), Eigen::Matrix3d::Identity());
    expect(sigma == 2, "the noise of a point off a plane that is known exactly");
    expect(maghnelt::sqrt(4) == 2 && maghnelt::total_order_key(0) == 0, "a root and a key");
    try {
        maghnelt::Plane::of(Eigen::Vector3d::Zero(), 1);
        expect(false, "a normal of length 0 is refused");
    } catch (const maghnelt::Refused &refused) {
        expect(refused.reason() == 11, "a normal of length 0 is reason 11");
    }
    std::printf("moments, planes and block maps through Eigen\n");
    return 0;
}
