// The moments of a wall's frames on a card: what a viewer reads that shows only counts, and the list read back bit for bit.
#include "wall.hpp"

#include <cstring>
#include <limits>

namespace {

// A whole group on a card, a record a row.
using Group = Eigen::Matrix<double, MAGHNELT_GROUP, MAGHNELT_MOMENTS>;

// So many frames of the wall, the first of ten points and each next one of one more.
maghnelt::MomentsList frames(Eigen::Index count) {
    maghnelt::MomentsList list(MAGHNELT_MOMENTS, count);
    for (Eigen::Index k = 0; k < count; ++k) {
        list.col(k) = maghnelt::Moments::from_points(wall(10 + k, 0.0)).record();
    }
    return list;
}

bool same_bits(const maghnelt::MomentsList &a, const maghnelt::MomentsList &b) {
    const std::size_t bytes = static_cast<std::size_t>(a.size()) * sizeof(double);
    return a.cols() == b.cols() && (bytes == 0 || std::memcmp(a.data(), b.data(), bytes) == 0);
}

// The counts alone: the first column of each whole group, and the first number of each record behind them.
Eigen::VectorXd counts(const Eigen::VectorXd &card) {
    const Eigen::Index records = card.size() / MAGHNELT_MOMENTS;
    const Eigen::Index grouped = records - records % MAGHNELT_GROUP;
    Eigen::VectorXd out(records);
    for (Eigen::Index first = 0; first < grouped; first += MAGHNELT_GROUP) {
        out.segment<MAGHNELT_GROUP>(first) = card.segment<MAGHNELT_GROUP>(first * MAGHNELT_MOMENTS);
    }
    for (Eigen::Index k = grouped; k < records; ++k) {
        out[k] = card[k * MAGHNELT_MOMENTS];
    }
    return out;
}

void check(const maghnelt::MomentsList &list) {
    const Eigen::VectorXd card = maghnelt::card_write(list);
    expect(same_bits(maghnelt::card_read(card), list), "a list is read back from its card");
    expect(counts(card) == list.row(0).transpose(), "counts that are read alone");
}

} // namespace

int main() {
    // Two whole groups and a shorter one.
    maghnelt::MomentsList list = frames(2 * MAGHNELT_GROUP + 3);
    const Eigen::VectorXd card = maghnelt::card_write(list);
    for (Eigen::Index g = 0; g < 2; ++g) {
        const Group group = Eigen::Map<const Group>(card.data() + g * Group::SizeAtCompileTime);
        expect(group == list.middleCols<MAGHNELT_GROUP>(g * MAGHNELT_GROUP).transpose(), "a whole group has a record a row");
    }
    const double *behind = card.data() + 2 * Group::SizeAtCompileTime;
    const Eigen::Map<const maghnelt::MomentsList> shorter(behind, MAGHNELT_MOMENTS, 3);
    expect(shorter == list.rightCols<3>(), "a shorter group is as it is in the list");

    for (const Eigen::Index count : {0, 1, MAGHNELT_GROUP - 1, MAGHNELT_GROUP, MAGHNELT_GROUP + 1}) {
        check(frames(count));
    }
    // A frame that was stored wrongly goes to the card and back as it is.
    list(3, 4) = -std::numeric_limits<double>::quiet_NaN();
    list(2, 17) = -0.0;
    check(list);

    expect(refused([&] { maghnelt::card_read(card.head(card.size() - 1)); }) == 3, "a part of a record is reason 3");
    const maghnelt::MomentsList too_many = maghnelt::MomentsList::Ones(MAGHNELT_MOMENTS, MAGHNELT_MAX_RECORDS + 1);
    expect(refused([&] { maghnelt::card_write(too_many); }) == 3, "too many records are reason 3");
    expect(refused([&] { maghnelt::card_write(too_many.leftCols(MAGHNELT_MAX_RECORDS)); }) == 0, "one record less is accepted");
    std::printf("%d records on a card: %.0f points by their counts alone\n", static_cast<int>(list.cols()), counts(card).sum());
    return 0;
}
