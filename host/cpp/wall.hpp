// The wall of the examples, the poses it is seen from, and what they check their numbers and refusals by.
#pragma once

#include <maghnelt.hpp>

#include <Eigen/Geometry>

#include <cmath>
#include <cstdio>
#include <cstdlib>

constexpr std::uint32_t dof = 6;
constexpr double sigma = 0.002;

// The scanner stands here, turned by an angle about the vertical.
struct Pose {
    Eigen::Matrix3d rotation;
    Eigen::Vector3d shift;
};

inline Pose pose(double angle, double x, double y) {
    return {Eigen::AngleAxisd(angle, Eigen::Vector3d::UnitZ()).toRotationMatrix(), Eigen::Vector3d(x, y, 1.5)};
}

// Points of the wall y = 5, three metres high, uneven by some millimetres, spread the same on every run.
inline maghnelt::Points wall(Eigen::Index count, double from) {
    maghnelt::Points points(3, count);
    for (Eigen::Index k = 0; k < count; ++k) {
        const auto spread = [k](double step) { return std::fmod(static_cast<double>(k) * step, 1.0); };
        points.col(k) << from + 4.0 * spread(0.754877), 5.0 + sigma * (2.0 * spread(0.618034) - 1.0), 3.0 * spread(0.569840);
    }
    return points;
}

inline void expect(bool holds, const char *what) {
    if (!holds) {
        std::printf("FAILED: %s\n", what);
        std::exit(1);
    }
}

// The number of the reason for which a call is turned away, 0 if it is not.
template <typename Call> std::uint32_t refused(const Call &call) {
    try {
        call();
        return 0;
    } catch (const maghnelt::Refused &why) {
        return why.reason();
    }
}
