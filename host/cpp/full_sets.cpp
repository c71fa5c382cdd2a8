// A job of more points than one set counts: what is refused at 2^53, that the set keeps its bits, and how a host goes on.
#include "wall.hpp"

#include <cstring>
#include <limits>
#include <string>
#include <vector>

namespace {

bool same_bits(const maghnelt::Moments &a, const maghnelt::Moments &b) {
    return std::memcmp(a.record().data(), b.record().data(), MAGHNELT_MOMENTS * sizeof(double)) == 0;
}

// A set of that count, with a NaN among its sums.
maghnelt::Moments with_count(double count) {
    maghnelt::Moments::Record record = maghnelt::Moments::Record::Ones();
    record[0] = count;
    record[2] = -std::numeric_limits<double>::quiet_NaN();
    return maghnelt::Moments(record);
}

// The reason why a call on a set is refused, 0 if it is not. A refused one leaves the set.
template <typename Call> std::uint32_t reason(maghnelt::Moments set, const Call &call) {
    const maghnelt::Moments before = set;
    const std::uint32_t why = refused([&] { call(set); });
    expect(why == 0 || same_bits(set, before), "a refused call leaves every bit of the set");
    return why;
}

std::uint32_t pushed(double count) {
    return reason(with_count(count), [](maghnelt::Moments &set) { set.push(Eigen::Vector3d(1, 2, 3)); });
}

std::uint32_t merged(double count, double other) {
    return reason(with_count(count), [other](maghnelt::Moments &set) { set.merge(with_count(other)); });
}

void check_counts() {
    constexpr double most = MAGHNELT_MAX_COUNT;
    constexpr double infinity = std::numeric_limits<double>::infinity();
    constexpr double nan = std::numeric_limits<double>::quiet_NaN();
    expect(pushed(most) == 15 && pushed(infinity) == 15, "a push to a full set is reason 15");
    expect(pushed(most - 1) == 0 && pushed(-most) == 0 && pushed(-infinity) == 0 && pushed(nan) == 0, "a push to any other set");
    expect(merged(most, 1) == 15 && merged(most, 5e-324) == 15 && merged(most + 2, -1) == 15, "a merge to more is reason 15");
    expect(merged(most - 1, 1.5) == 15, "a merge to more is reason 15, also where the rounded sum is 2^53");
    expect(merged(most - 1, 1) == 0 && merged(most, -0.0) == 0 && merged(most + 2, -2) == 0, "a merge to 2^53");
    expect(merged(infinity, -1e308) == 15 && merged(-infinity, 1e308) == 0, "a merge with an infinite count");
    expect(merged(infinity, -infinity) == 0 && merged(nan, most) == 0, "a merge to a count that is no number");
}

// Any number of points: a set that is full is closed, and what it had no room for begins the next one.
class Job {
  public:
    explicit Job(const maghnelt::Moments &begun) : open(begun) {}

    void merge(const maghnelt::Moments &part) {
        try {
            open.merge(part);
        } catch (const maghnelt::Refused &why) {
            if (why.reason() != 15) {
                throw;
            }
            closed.push_back(open);
            open = part;
        }
    }

    std::size_t sets() const { return closed.size() + 1; }

    // In integers, since a double does not hold every such number.
    std::uint64_t points() const {
        std::uint64_t total = static_cast<std::uint64_t>(open.count());
        for (const maghnelt::Moments &set : closed) {
            total += static_cast<std::uint64_t>(set.count());
        }
        return total;
    }

  private:
    std::vector<maghnelt::Moments> closed;
    maghnelt::Moments open;
};

} // namespace

int main() {
    check_counts();
    expect(std::string(maghnelt::reason_text(15)).find("2^53") != std::string::npos, "the reason is told");

    // A set that is merged with itself doubles: from one point to 2^53.
    maghnelt::Moments full = maghnelt::Moments::from_points(wall(1, 0.0));
    for (int doublings = 0; doublings < 53; ++doublings) {
        full.merge(full);
    }
    expect(full.count() == MAGHNELT_MAX_COUNT, "a set of 2^53 points");
    expect(reason(full, [](maghnelt::Moments &set) { set.merge(set); }) == 15, "one doubling more is reason 15");

    Job job(full);
    for (int parts = 0; parts < 3; ++parts) {
        job.merge(maghnelt::Moments::from_points(wall(1001, 0.0)));
    }
    expect(job.sets() == 2 && job.points() == (UINT64_C(1) << 53) + 3003, "no point is lost");
    std::printf("%d sets of %llu points\n", static_cast<int>(job.sets()), static_cast<unsigned long long>(job.points()));
    return 0;
}
