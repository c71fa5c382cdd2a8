// The C interface of Maghnelt for programs that use Eigen: every function of maghnelt.h, with vectors and matrices in place of
// pointers and lengths. Needs C++17, maghnelt.h and Eigen 3; there is nothing to link besides the library.
//
// Numbers lie in Eigen's own order, by columns, so that nothing is turned round: a list of records is a matrix with a record a
// column, and what is handed to the library are the maps' own numbers. A call that is turned away throws `maghnelt::Refused`
// with the reason's number, and has then written nothing. Where there is simply no answer, it is an empty `std::optional`.
#ifndef MAGHNELT_HPP
#define MAGHNELT_HPP

#include <maghnelt.h>

#include <Eigen/Core>
#include <Eigen/Eigenvalues>

#include <algorithm>
#include <array>
#include <cstddef>
#include <cstdint>
#include <optional>
#include <stdexcept>
#include <string>
#include <vector>

namespace maghnelt {

// Why a call was turned away, by the reason's number.
inline const char *reason_text(std::uint32_t reason) noexcept {
    switch (reason) {
    case 1:
        return "the dof is above 9";
    case 2:
        return "the list of frames, of counts or of matches is empty";
    case 3:
        return "a slice other than the actions has not the length its counts call for, or a limit is passed";
    case 4:
        return "some frame's count (in a bundle, its number of points) is at or below 0";
    case 5:
        return "the frames' counts summed in order, plus the fixed count (in a bundle, numbers of points), are below 3";
    case 6:
        return "a moment of a frame or the fixed set, or a coordinate of a point or a fixed point, is not finite";
    case 7:
        return "sigma is not finite and positive";
    case 8:
        return "the actions are not 120 numbers for each frame (one action, for a match list)";
    case 9:
        return "a map word has a bad kind or a bad low part";
    case 10:
        return "a mapped frame's offset plus dof, or plus its transform's columns, exceeds the order n of the Hessian";
    case 11:
        return "a plane's normal has a norm that is not finite or not above 1e-12";
    case 12:
        return "the point-to-plane variance is not finite and positive";
    case 13:
        return "the fixed set's count is below 0 (in a strict build only)";
    case 14:
        return "a transform has more than 9 columns or not dof rows, or a further one not as many columns as the one it multiplies has rows";
    case 15:
        return "the count is at or above 2^53 (in a push), or the exact sum of the two counts is above it (in a merge)";
    default:
        return "one that this version of the header does not know";
    }
}

// A call that was turned away. It has written nothing.
class Refused : public std::runtime_error {
  public:
    explicit Refused(std::uint32_t reason)
        : std::runtime_error("reason " + std::to_string(reason) + ": " + reason_text(reason)), number(reason) {}
    std::uint32_t reason() const noexcept { return number; }

  private:
    std::uint32_t number;
};

using Matrix36 = Eigen::Matrix<double, 3, 6>;
using Matrix66 = Eigen::Matrix<double, 6, 6>;
// A point a column.
using Points = Eigen::Matrix<double, 3, Eigen::Dynamic>;

namespace detail {

inline void accept(std::uint32_t answer) {
    if (answer != 0) {
        throw Refused(answer);
    }
}

// The library takes no null, also where a length is 0; Eigen's data() of an empty matrix is one.
template <typename Number> Number *given(Number *data) {
    static double nothing = 0.0;
    return data != nullptr ? data : reinterpret_cast<Number *>(&nothing);
}

template <typename Lent> std::size_t length(const Lent &lent) { return static_cast<std::size_t>(lent.size()); }

} // namespace detail

// A slice is a pointer and then a length.
#define MAGHNELT_LENT(lent) ::maghnelt::detail::given((lent).data()), ::maghnelt::detail::length(lent)

// ---- leaves ----

inline double sqrt(double x) noexcept { return maghnelt_sqrt(x); }
inline std::int64_t total_order_key(std::uint64_t bits) noexcept { return maghnelt_total_order_key(bits); }

// ---- decompositions: three eigenvalues, then their vectors ----

class Decomposition {
  public:
    using Record = Eigen::Matrix<double, MAGHNELT_DECOMPOSITION, 1>;

    // Eigenvalues and vectors in any order, used as they come.
    Decomposition(const Eigen::Vector3d &values, const Eigen::Matrix3d &vectors) {
        numbers << values, Eigen::Map<const Eigen::Matrix<double, 9, 1>>(vectors.data());
    }

    // Eigen's decomposition of a symmetric matrix.
    static Decomposition of(const Eigen::Matrix3d &symmetric) {
        const Eigen::SelfAdjointEigenSolver<Eigen::Matrix3d> solver(symmetric);
        return Decomposition(solver.eigenvalues(), solver.eigenvectors());
    }

    Eigen::Map<const Eigen::Vector3d> values() const { return Eigen::Map<const Eigen::Vector3d>(numbers.data()); }
    Eigen::Map<const Eigen::Matrix3d> vectors() const { return Eigen::Map<const Eigen::Matrix3d>(numbers.data() + 3); }
    const Record &record() const { return numbers; }

  private:
    Record numbers;
};

// ---- planes ----

struct Plane {
    Eigen::Vector3d normal;
    double offset;

    // The plane of a normal of any length.
    static Plane of(const Eigen::Vector3d &normal, double offset) {
        Eigen::Vector4d plane;
        detail::accept(maghnelt_plane_new(MAGHNELT_LENT(normal), offset, MAGHNELT_LENT(plane)));
        return {plane.head<3>(), plane[3]};
    }
};

// The standard deviation of a point's distance from a plane.
inline double point_to_plane_sigma(const Plane &plane, const Eigen::Vector3d &centroid, const Matrix66 &plane_covariance,
                                   const Eigen::Matrix3d &point_covariance, const Eigen::Vector3d &world,
                                   const Eigen::Matrix3d &d_world_d_point) {
    Eigen::Vector4d numbers;
    numbers << plane.normal, plane.offset;
    double sigma = 0.0;
    detail::accept(maghnelt_point_to_plane_sigma(MAGHNELT_LENT(numbers), MAGHNELT_LENT(centroid), MAGHNELT_LENT(plane_covariance),
                                                 MAGHNELT_LENT(point_covariance), MAGHNELT_LENT(world),
                                                 MAGHNELT_LENT(d_world_d_point), &sigma));
    return sigma;
}

// ---- moments: how many points, their sum, and the sum of their outer products ----

struct MeanAndScatter {
    Eigen::Vector3d mean;
    Eigen::Matrix3d scatter;
};

struct FittedPlane {
    Plane plane;
    Eigen::Vector3d eigenvalues;
};

// A set of moments a column.
using MomentsList = Eigen::Matrix<double, MAGHNELT_MOMENTS, Eigen::Dynamic>;

class Moments {
  public:
    using Record = Eigen::Matrix<double, MAGHNELT_MOMENTS, 1>;

    // The empty set.
    Moments() : numbers(Record::Zero()) {}
    // A record that was stored, taken as it comes.
    explicit Moments(const Record &record) : numbers(record) {}

    static Moments from_points(const Points &points) {
        Moments moments;
        detail::accept(maghnelt_moments_from_points(MAGHNELT_LENT(points), MAGHNELT_LENT(moments.numbers)));
        return moments;
    }

    // One point more. Refused by 15 if the count is at or above MAGHNELT_MAX_COUNT; the set is then as it was.
    void push(const Eigen::Vector3d &point) {
        detail::accept(maghnelt_moments_push(MAGHNELT_LENT(numbers), MAGHNELT_LENT(point)));
    }

    // The points of another set too. Refused by 15 if the exact sum of the two counts is above MAGHNELT_MAX_COUNT; the set is then as
    // it was.
    void merge(const Moments &other) {
        // The library lends the one for writing, so that a set merged with itself needs a copy.
        const Record copy = other.numbers;
        detail::accept(maghnelt_moments_merge(MAGHNELT_LENT(numbers), MAGHNELT_LENT(copy)));
    }

    // The moments of the points carried by p -> a p + b.
    Moments transformed(const Eigen::Matrix3d &a, const Eigen::Vector3d &b) const {
        Moments moved;
        detail::accept(
            maghnelt_moments_transformed(MAGHNELT_LENT(numbers), MAGHNELT_LENT(a), MAGHNELT_LENT(b), MAGHNELT_LENT(moved.numbers)));
        return moved;
    }

    std::optional<MeanAndScatter> mean_and_scatter() const {
        Eigen::Matrix<double, 3, 4> out;
        std::uint32_t found = 0;
        detail::accept(maghnelt_moments_mean_and_scatter(MAGHNELT_LENT(numbers), MAGHNELT_LENT(out), &found));
        if (found == 0) {
            return std::nullopt;
        }
        return MeanAndScatter{out.col(0), out.rightCols<3>()};
    }

    // The plane of least scatter, by the decomposition of the scatter.
    std::optional<FittedPlane> plane(const Decomposition &decomposition) const {
        Eigen::Matrix<double, 7, 1> out;
        std::uint32_t found = 0;
        detail::accept(
            maghnelt_moments_plane(MAGHNELT_LENT(numbers), MAGHNELT_LENT(decomposition.record()), MAGHNELT_LENT(out), &found));
        if (found == 0) {
            return std::nullopt;
        }
        return FittedPlane{{out.head<3>(), out[3]}, out.tail<3>()};
    }

    double count() const { return numbers[0]; }
    Eigen::Map<const Eigen::Vector3d> sum() const { return Eigen::Map<const Eigen::Vector3d>(numbers.data() + 1); }
    Eigen::Map<const Eigen::Matrix3d> outer() const { return Eigen::Map<const Eigen::Matrix3d>(numbers.data() + 4); }
    const Record &record() const { return numbers; }

  private:
    Record numbers;
};

// ---- cards: moment lists in groups, the counts of each group first ----

// The numbers of the card that stores a list. A whole group is MAGHNELT_GROUP records, and on the card a matrix of as many rows, a
// record a row: its first column has the counts. A last shorter group is as it is in the list, a record a column. Every number keeps
// its bits, a NaN too.
inline Eigen::VectorXd card_write(const MomentsList &moments) {
    Eigen::VectorXd card(moments.size());
    detail::accept(maghnelt_card_write(MAGHNELT_LENT(moments), MAGHNELT_LENT(card)));
    return card;
}

// The list that a card stores, bit for bit.
inline MomentsList card_read(const Eigen::VectorXd &card) {
    // Numbers behind the last whole record find no place, and the library refuses the different lengths.
    MomentsList moments(MAGHNELT_MOMENTS, card.size() / MAGHNELT_MOMENTS);
    detail::accept(maghnelt_card_read(MAGHNELT_LENT(card), MAGHNELT_LENT(moments)));
    return moments;
}

// ---- block maps: an offset for each frame, or none ----

class BlockMap {
  public:
    static constexpr std::uint32_t unmapped = UINT32_C(0x40000000);

    BlockMap() = default;
    explicit BlockMap(std::vector<std::uint32_t> words) : list(std::move(words)) {}

    // What an index list makes of this map.
    BlockMap remapped(const BlockMap &indices) const {
        BlockMap out(std::vector<std::uint32_t>(indices.list.size()));
        detail::accept(maghnelt_remap(MAGHNELT_LENT(list), MAGHNELT_LENT(indices.list), MAGHNELT_LENT(out.list)));
        return out;
    }

    const std::vector<std::uint32_t> &words() const { return list; }

  private:
    std::vector<std::uint32_t> list;
};

// ---- transforms beside a map: how a frame's parameters follow from those that are solved for ----

// A matrix T of dof rows for each word of a map, or none. The rows are in the same axes as the derivative columns of the frame's
// action. A frame adds T^t M T and T^t v in place of its block M and its vector v, so that its segment is as wide as T: the map's
// offsets leave room for T's columns, and the frame's step is T times its part of the solution.
class Transforms {
  public:
    // No word of any map has one.
    Transforms() = default;
    // A matrix or none for each word. One of more than nine rows or columns is refused by 14.
    explicit Transforms(const std::vector<std::optional<Eigen::MatrixXd>> &of_words) {
        for (const std::optional<Eigen::MatrixXd> &matrix : of_words) {
            const Record record = matrix ? Record(*matrix) : Record();
            sizes.insert(sizes.end(), record.shape.begin(), record.shape.end());
            entries.insert(entries.end(), record.numbers.data(), record.numbers.data() + MAGHNELT_TRANSFORM);
        }
    }

    // These with a further one at a place of the map: it multiplies the one that is there from the left, or is taken where there is
    // none. With the total T = further * old a frame adds T^t M T.
    Transforms transformed(std::uint32_t dof, const BlockMap &map, std::uint32_t place, const Eigen::MatrixXd &further) const {
        const Record record(further);
        Transforms out(std::vector<std::optional<Eigen::MatrixXd>>(map.words().size()));
        detail::accept(maghnelt_transform(dof, MAGHNELT_LENT(map.words()), MAGHNELT_LENT(sizes), MAGHNELT_LENT(entries), place,
                                          MAGHNELT_LENT(record.shape), MAGHNELT_LENT(record.numbers), MAGHNELT_LENT(out.sizes),
                                          MAGHNELT_LENT(out.entries)));
        return out;
    }

    // The transform of a word, if it has one.
    std::optional<Eigen::MatrixXd> transform(std::size_t word) const {
        if (!has(word)) {
            return std::nullopt;
        }
        return Eigen::Map<const Eigen::MatrixXd>(entries.data() + MAGHNELT_TRANSFORM * word, sizes[2 * word], sizes[2 * word + 1]);
    }

    // How wide the segment of a word is.
    Eigen::Index width(std::uint32_t dof, std::size_t word) const { return has(word) ? sizes[2 * word + 1] : dof; }

    // Shapes and numbers as they are handed to the library.
    const std::vector<std::uint32_t> &shapes() const { return sizes; }
    const std::vector<double> &numbers() const { return entries; }

  private:
    // A matrix as the library takes it, or none.
    struct Record {
        std::array<std::uint32_t, 2> shape{MAGHNELT_NO_TRANSFORM, MAGHNELT_NO_TRANSFORM};
        Eigen::Matrix<double, MAGHNELT_TRANSFORM, 1> numbers = Eigen::Matrix<double, MAGHNELT_TRANSFORM, 1>::Zero();

        Record() = default;
        explicit Record(const Eigen::MatrixXd &matrix)
            : shape{static_cast<std::uint32_t>(matrix.rows()), static_cast<std::uint32_t>(matrix.cols())} {
            // Numbers that find no place are those of a matrix that is refused below.
            std::copy_n(matrix.data(), std::min<Eigen::Index>(matrix.size(), MAGHNELT_TRANSFORM), numbers.data());
            // The library's own tests, beside a map of no words. No dof has more rows than the most.
            const std::uint32_t dof = std::min<std::uint32_t>(shape[0], MAGHNELT_MAX_DOF);
            std::vector<std::uint32_t> words;
            std::vector<double> none;
            detail::accept(maghnelt_transform(dof, MAGHNELT_LENT(words), MAGHNELT_LENT(words), MAGHNELT_LENT(none), 0,
                                              MAGHNELT_LENT(shape), MAGHNELT_LENT(numbers), MAGHNELT_LENT(words), MAGHNELT_LENT(none)));
        }
    };

    bool has(std::size_t word) const {
        return 2 * word < sizes.size() && (sizes[2 * word] != MAGHNELT_NO_TRANSFORM || sizes[2 * word + 1] != MAGHNELT_NO_TRANSFORM);
    }

    std::vector<std::uint32_t> sizes;
    std::vector<double> entries;
};

// The transform that locks the height of a pose as in Action::rigid, a shift r and then a turn, both in the frame's own axes: a step
// lifts the pose by (R r)_z, so that the shifts that are left are R^t e_x and R^t e_y. It belongs to this rotation, and is made anew
// at each step.
inline Eigen::Matrix<double, 6, 5> locked_height(const Eigen::Matrix3d &rotation) {
    Eigen::Matrix<double, 6, 5> locked = Eigen::Matrix<double, 6, 5>::Zero();
    locked.topLeftCorner<3, 2>() = rotation.transpose().leftCols<2>();
    locked.bottomRightCorner<3, 3>().setIdentity();
    return locked;
}

// ---- actions: p -> A p + b, and its derivatives by the state's parameters ----

// An action a column.
using Actions = Eigen::Matrix<double, MAGHNELT_ACTION, Eigen::Dynamic>;

class Action {
  public:
    using Record = Eigen::Matrix<double, MAGHNELT_ACTION, 1>;
    using Columns = Eigen::Matrix<double, 3, 9>;

    // No derivatives yet: write them to origin() and axis(k).
    Action(const Eigen::Matrix3d &a, const Eigen::Vector3d &b) : numbers(Record::Zero()) {
        numbers.head<9>() = Eigen::Map<const Eigen::Matrix<double, 9, 1>>(a.data());
        numbers.segment<3>(9) = b;
    }

    // A rigid motion with six parameters, a shift and then a turn, both in the frame's own axes.
    static Action rigid(const Eigen::Matrix3d &rotation, const Eigen::Vector3d &shift) {
        Action action(rotation, shift);
        action.origin().leftCols<3>() = rotation;
        for (Eigen::Index k = 0; k < 3; ++k) {
            for (Eigen::Index c = 0; c < 3; ++c) {
                action.axis(k).col(3 + c) = -rotation * Eigen::Vector3d::Unit(k).cross(Eigen::Vector3d::Unit(c));
            }
        }
        return action;
    }

    Eigen::Map<const Eigen::Matrix3d> matrix() const { return Eigen::Map<const Eigen::Matrix3d>(numbers.data()); }
    Eigen::Map<const Eigen::Vector3d> shift() const { return Eigen::Map<const Eigen::Vector3d>(numbers.data() + 9); }
    // The derivatives of b, and of column k of A.
    Eigen::Map<Columns> origin() { return Eigen::Map<Columns>(numbers.data() + 12); }
    Eigen::Map<Columns> axis(Eigen::Index k) { return Eigen::Map<Columns>(numbers.data() + 39 + 27 * k); }
    const Record &record() const { return numbers; }

  private:
    Record numbers;
};

// ---- frames of one plane ----

// A centred frame a column: count, mean, and scatter times count.
using CentredList = Eigen::Matrix<double, MAGHNELT_CENTRED, Eigen::Dynamic>;

// The mean and the scatter that a plane is fitted to. `fixed` has one column, or none where there is no fixed set.
inline MeanAndScatter frames_fit(std::uint32_t dof, const CentredList &frames, const CentredList &fixed, const Actions &actions) {
    Eigen::Matrix<double, 3, 4> out;
    detail::accept(
        maghnelt_frames_fit(dof, MAGHNELT_LENT(frames), MAGHNELT_LENT(fixed), MAGHNELT_LENT(actions), MAGHNELT_LENT(out)));
    return {out.col(0), out.rightCols<3>()};
}

// A residual a row, and its derivatives by the parameters of the states.
struct Rows {
    Eigen::VectorXd residual;
    Eigen::MatrixXd jacobian;
};

// A plane over several frames, built once of the frames' own moments; each later call takes the frames' actions.
class FrameFactor {
  public:
    // Frames and fixed set are moments; a fixed set is one column, or none.
    FrameFactor(std::uint32_t dof, const MomentsList &frames, const MomentsList &fixed, double sigma)
        : FrameFactor(maghnelt_frames_build, dof, frames, fixed, sigma) {}

    // The same by the survey rule: a fixed set of a negative count is refused by 13, where the constructor drops it after it has lowered
    // the total of 5. Unless it is refused by 13, the factor is the constructor's, and so is any other refusal.
    static FrameFactor build_strict(std::uint32_t dof, const MomentsList &frames, const MomentsList &fixed, double sigma) {
        return FrameFactor(maghnelt_frames_build_strict, dof, frames, fixed, sigma);
    }

    // All points, free and fixed.
    double points() const { return total; }
    // The frames, and the fixed set if it was kept.
    const CentredList &frames() const { return own; }
    const CentredList &fixed() const { return known; }

    MeanAndScatter fit(const Actions &actions) const { return frames_fit(width, own, known, actions); }

    // Adds the plane's blocks to the Hessian and the gradient, and returns its cost.
    double accumulate(const Actions &actions, const Decomposition &fitted, const BlockMap &map, Eigen::MatrixXd &hessian,
                      Eigen::VectorXd &gradient) const {
        double cost = 0.0;
        detail::accept(maghnelt_frames_accumulate(width, MAGHNELT_LENT(own), MAGHNELT_LENT(known), noise, MAGHNELT_LENT(actions),
                                                  MAGHNELT_LENT(fitted.record()), MAGHNELT_LENT(map.words()), MAGHNELT_LENT(hessian),
                                                  MAGHNELT_LENT(gradient), &cost));
        return cost;
    }

    // The same with transforms beside the map.
    double accumulate_transformed(const Actions &actions, const Decomposition &fitted, const BlockMap &map, const Transforms &transforms,
                                  Eigen::MatrixXd &hessian, Eigen::VectorXd &gradient) const {
        double cost = 0.0;
        detail::accept(maghnelt_frames_accumulate_transformed(
            width, MAGHNELT_LENT(own), MAGHNELT_LENT(known), noise, MAGHNELT_LENT(actions), MAGHNELT_LENT(fitted.record()),
            MAGHNELT_LENT(map.words()), MAGHNELT_LENT(transforms.shapes()), MAGHNELT_LENT(transforms.numbers()), MAGHNELT_LENT(hessian),
            MAGHNELT_LENT(gradient), &cost));
        return cost;
    }

    // Residuals and Jacobian: four rows a frame and four for the fixed set, dof columns a frame. The decompositions of the
    // frames and of the fixed set are worked out here.
    Rows linearize(const Actions &actions, const Decomposition &fitted) const {
        const Eigen::Index count = own.cols();
        Eigen::Matrix<double, MAGHNELT_DECOMPOSITION, Eigen::Dynamic> found(MAGHNELT_DECOMPOSITION, 1 + count + known.cols());
        found.col(0) = fitted.record();
        for (Eigen::Index k = 0; k < count + known.cols(); ++k) {
            const auto frame = k < count ? own.col(k) : known.col(k - count);
            const Eigen::Matrix3d scatter = Eigen::Map<const Eigen::Matrix3d>(frame.data() + 4);
            found.col(1 + k) = Decomposition::of(scatter).record();
        }
        Rows rows{Eigen::VectorXd(4 * count + 4), Eigen::MatrixXd(4 * count + 4, count * static_cast<Eigen::Index>(width))};
        detail::accept(maghnelt_frames_linearize(width, MAGHNELT_LENT(own), MAGHNELT_LENT(known), noise, MAGHNELT_LENT(actions),
                                                 MAGHNELT_LENT(found), MAGHNELT_LENT(rows.residual), MAGHNELT_LENT(rows.jacobian)));
        return rows;
    }

  private:
    using Build = decltype(maghnelt_frames_build);

    FrameFactor(Build *build, std::uint32_t dof, const MomentsList &frames, const MomentsList &fixed, double sigma)
        : width(dof), noise(sigma), own(MAGHNELT_CENTRED, frames.cols()), known(MAGHNELT_CENTRED, fixed.cols()) {
        std::uint32_t dropped = 0;
        detail::accept(build(dof, MAGHNELT_LENT(frames), MAGHNELT_LENT(fixed), sigma, MAGHNELT_LENT(own), MAGHNELT_LENT(known), &total,
                             &dropped));
        if (dropped != 0) {
            known.resize(MAGHNELT_CENTRED, 0);
        }
    }

    std::uint32_t width;
    double noise;
    CentredList own;
    CentredList known;
    double total = 0.0;
};

// ---- bundles: one plane point by point ----

// A plane over several frames, by the points of each frame as they lie in the site and points that are fixed there. Each point has
// a row: first those of the frames, in the order in which they were added, and then the fixed ones. A bundle is of one state of the
// frames: when they have moved, another one is filled.
class Bundle {
  public:
    // No frame yet; each frame's state has dof parameters.
    explicit Bundle(std::uint32_t dof) : width(dof) {}

    // A frame more: its points in the site, and their derivatives by its state, dof columns for the first point, then for the next.
    void add_frame(const Points &points, const Points &d_state) {
        // Tested here, since what one frame has too many another may have too few.
        if (d_state.cols() != static_cast<Eigen::Index>(width) * points.cols()) {
            throw Refused(3);
        }
        sizes.push_back(static_cast<std::uint32_t>(points.cols()));
        placed.insert(placed.end(), points.data(), points.data() + points.size());
        columns.insert(columns.end(), d_state.data(), d_state.data() + d_state.size());
    }

    // Points more that are known in the site.
    void add_fixed(const Points &points) { known.insert(known.end(), points.data(), points.data() + points.size()); }

    // The number of points of each frame, and that of all rows.
    const std::vector<std::uint32_t> &counts() const { return sizes; }
    Eigen::Index rows() const { return static_cast<Eigen::Index>((placed.size() + known.size()) / 3); }

    // The mean of all points and their scatter about it, divided by their number.
    MeanAndScatter fit() const {
        Eigen::Matrix<double, 3, 4> out;
        detail::accept(maghnelt_bundle_fit(MAGHNELT_LENT(sizes), MAGHNELT_LENT(placed), MAGHNELT_LENT(known), MAGHNELT_LENT(out)));
        return {out.col(0), out.rightCols<3>()};
    }

    // A residual a point, and the Jacobian, dof columns a frame: a row has numbers in the columns of its own frame alone.
    Rows linearize(double sigma, const Decomposition &fitted) const {
        const Eigen::Index frames = static_cast<Eigen::Index>(sizes.size());
        Rows out{Eigen::VectorXd(written()), Eigen::MatrixXd(written(), frames * static_cast<Eigen::Index>(width))};
        write(sigma, fitted, out.residual, out.jacobian);
        return out;
    }

    // The residuals alone.
    Eigen::VectorXd residual(double sigma, const Decomposition &fitted) const {
        Eigen::VectorXd out(written());
        Eigen::MatrixXd none(0, 0);
        write(sigma, fitted, out, none);
        return out;
    }

  private:
    // No rows where a limit is passed: that is refused whatever is lent, and might ask for more memory than there is.
    Eigen::Index written() const {
        const bool refused = width > MAGHNELT_MAX_DOF || sizes.size() > MAGHNELT_MAX_FRAMES || rows() > MAGHNELT_MAX_POINTS;
        return refused ? 0 : rows();
    }

    void write(double sigma, const Decomposition &fitted, Eigen::VectorXd &residual, Eigen::MatrixXd &jacobian) const {
        detail::accept(maghnelt_bundle_linearize(width, MAGHNELT_LENT(sizes), MAGHNELT_LENT(placed), MAGHNELT_LENT(columns),
                                                 MAGHNELT_LENT(known), sigma, MAGHNELT_LENT(fitted.record()),
                                                 MAGHNELT_LENT(residual), MAGHNELT_LENT(jacobian)));
    }

    std::uint32_t width;
    std::vector<std::uint32_t> sizes;
    std::vector<double> placed;
    std::vector<double> columns;
    std::vector<double> known;
};

// ---- matches on one pose ----

// A match a column: point (3), normal (3), offset, sigma.
using Matches = Eigen::Matrix<double, MAGHNELT_MATCH, Eigen::Dynamic>;

// Adds the matches' block to the Hessian and the gradient, at the place that word 0 of the map names, and returns the cost.
inline double matches_accumulate(std::uint32_t dof, const Matches &matches, const Action &action, const BlockMap &map,
                                 Eigen::MatrixXd &hessian, Eigen::VectorXd &gradient) {
    double cost = 0.0;
    detail::accept(maghnelt_matches_accumulate(dof, MAGHNELT_LENT(matches), MAGHNELT_LENT(action.record()), MAGHNELT_LENT(map.words()),
                                               MAGHNELT_LENT(hessian), MAGHNELT_LENT(gradient), &cost));
    return cost;
}

// The same with transforms beside the map.
inline double matches_accumulate_transformed(std::uint32_t dof, const Matches &matches, const Action &action, const BlockMap &map,
                                             const Transforms &transforms, Eigen::MatrixXd &hessian, Eigen::VectorXd &gradient) {
    double cost = 0.0;
    detail::accept(maghnelt_matches_accumulate_transformed(
        dof, MAGHNELT_LENT(matches), MAGHNELT_LENT(action.record()), MAGHNELT_LENT(map.words()), MAGHNELT_LENT(transforms.shapes()),
        MAGHNELT_LENT(transforms.numbers()), MAGHNELT_LENT(hessian), MAGHNELT_LENT(gradient), &cost));
    return cost;
}

// A residual a match, and its dof derivatives.
inline Rows matches_linearize(std::uint32_t dof, const Matches &matches, const Action &action) {
    Rows rows{Eigen::VectorXd(matches.cols()), Eigen::MatrixXd(matches.cols(), static_cast<Eigen::Index>(dof))};
    detail::accept(maghnelt_matches_linearize(dof, MAGHNELT_LENT(matches), MAGHNELT_LENT(action.record()),
                                              MAGHNELT_LENT(rows.residual), MAGHNELT_LENT(rows.jacobian)));
    return rows;
}

struct MatchRow {
    double residual;
    // dof state columns, then six extrinsic ones.
    Eigen::RowVectorXd row;
};

// One match below its chain: its world point, and that point's derivatives by the state and by the extrinsic pose.
inline MatchRow match_linearize(const Eigen::Matrix<double, MAGHNELT_MATCH, 1> &match, const Eigen::Vector3d &world,
                                const Points &d_state, const Matrix36 &d_extrinsic) {
    MatchRow out{0.0, Eigen::RowVectorXd(d_state.cols() + 6)};
    detail::accept(maghnelt_match_linearize(static_cast<std::uint32_t>(d_state.cols()), MAGHNELT_LENT(match), MAGHNELT_LENT(world),
                                            MAGHNELT_LENT(d_state), MAGHNELT_LENT(d_extrinsic), &out.residual, MAGHNELT_LENT(out.row)));
    return out;
}

#undef MAGHNELT_LENT

} // namespace maghnelt

#endif
