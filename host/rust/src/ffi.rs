//! The functions of `libmaghnelt.a`, as `include/maghnelt.h` declares them; the modules beside this one make them safe.
//! A slice is a pointer and then a length in elements.

extern "C" {
    pub(crate) fn maghnelt_sqrt(x: f64) -> f64;
    pub(crate) fn maghnelt_total_order_key(bits: u64) -> i64;

    pub(crate) fn maghnelt_moments_from_points(
        points: *const f64,
        points_length: usize,
        moments: *mut f64,
        moments_length: usize,
    ) -> u32;
    pub(crate) fn maghnelt_moments_push(
        moments: *mut f64,
        moments_length: usize,
        point: *const f64,
        point_length: usize,
    ) -> u32;
    pub(crate) fn maghnelt_moments_merge(
        moments: *mut f64,
        moments_length: usize,
        other: *const f64,
        other_length: usize,
    ) -> u32;
    pub(crate) fn maghnelt_moments_transformed(
        moments: *const f64,
        moments_length: usize,
        a: *const f64,
        a_length: usize,
        b: *const f64,
        b_length: usize,
        out: *mut f64,
        out_length: usize,
    ) -> u32;
    pub(crate) fn maghnelt_moments_mean_and_scatter(
        moments: *const f64,
        moments_length: usize,
        out: *mut f64,
        out_length: usize,
        found: *mut u32,
    ) -> u32;
    pub(crate) fn maghnelt_moments_plane(
        moments: *const f64,
        moments_length: usize,
        decomposition: *const f64,
        decomposition_length: usize,
        out: *mut f64,
        out_length: usize,
        found: *mut u32,
    ) -> u32;

    pub(crate) fn maghnelt_card_write(
        moments: *const f64,
        moments_length: usize,
        card: *mut f64,
        card_length: usize,
    ) -> u32;
    pub(crate) fn maghnelt_card_read(
        card: *const f64,
        card_length: usize,
        moments: *mut f64,
        moments_length: usize,
    ) -> u32;

    pub(crate) fn maghnelt_plane_new(
        normal: *const f64,
        normal_length: usize,
        offset: f64,
        plane: *mut f64,
        plane_length: usize,
    ) -> u32;
    pub(crate) fn maghnelt_point_to_plane_sigma(
        plane: *const f64,
        plane_length: usize,
        centroid: *const f64,
        centroid_length: usize,
        plane_covariance: *const f64,
        plane_covariance_length: usize,
        point_covariance: *const f64,
        point_covariance_length: usize,
        world: *const f64,
        world_length: usize,
        d_world_d_point: *const f64,
        d_world_d_point_length: usize,
        sigma: *mut f64,
    ) -> u32;

    pub(crate) fn maghnelt_remap(
        map: *const u32,
        map_length: usize,
        list: *const u32,
        list_length: usize,
        out: *mut u32,
        out_length: usize,
    ) -> u32;
    pub(crate) fn maghnelt_transform(
        dof: u32,
        map: *const u32,
        map_length: usize,
        shapes: *const u32,
        shapes_length: usize,
        transforms: *const f64,
        transforms_length: usize,
        place: u32,
        further_shape: *const u32,
        further_shape_length: usize,
        further: *const f64,
        further_length: usize,
        out_shapes: *mut u32,
        out_shapes_length: usize,
        out_transforms: *mut f64,
        out_transforms_length: usize,
    ) -> u32;

    pub(crate) fn maghnelt_frames_build(
        dof: u32,
        frames: *const f64,
        frames_length: usize,
        fixed: *const f64,
        fixed_length: usize,
        sigma: f64,
        centred_frames: *mut f64,
        centred_frames_length: usize,
        centred_fixed: *mut f64,
        centred_fixed_length: usize,
        points: *mut f64,
        fixed_dropped: *mut u32,
    ) -> u32;
    pub(crate) fn maghnelt_frames_build_strict(
        dof: u32,
        frames: *const f64,
        frames_length: usize,
        fixed: *const f64,
        fixed_length: usize,
        sigma: f64,
        centred_frames: *mut f64,
        centred_frames_length: usize,
        centred_fixed: *mut f64,
        centred_fixed_length: usize,
        points: *mut f64,
        fixed_dropped: *mut u32,
    ) -> u32;
    pub(crate) fn maghnelt_frames_fit(
        dof: u32,
        frames: *const f64,
        frames_length: usize,
        fixed: *const f64,
        fixed_length: usize,
        actions: *const f64,
        actions_length: usize,
        out: *mut f64,
        out_length: usize,
    ) -> u32;

    pub(crate) fn maghnelt_frames_accumulate(
        dof: u32,
        frames: *const f64,
        frames_length: usize,
        fixed: *const f64,
        fixed_length: usize,
        sigma: f64,
        actions: *const f64,
        actions_length: usize,
        decomposition: *const f64,
        decomposition_length: usize,
        map: *const u32,
        map_length: usize,
        hessian: *mut f64,
        hessian_length: usize,
        gradient: *mut f64,
        gradient_length: usize,
        cost: *mut f64,
    ) -> u32;
    pub(crate) fn maghnelt_frames_accumulate_transformed(
        dof: u32,
        frames: *const f64,
        frames_length: usize,
        fixed: *const f64,
        fixed_length: usize,
        sigma: f64,
        actions: *const f64,
        actions_length: usize,
        decomposition: *const f64,
        decomposition_length: usize,
        map: *const u32,
        map_length: usize,
        shapes: *const u32,
        shapes_length: usize,
        transforms: *const f64,
        transforms_length: usize,
        hessian: *mut f64,
        hessian_length: usize,
        gradient: *mut f64,
        gradient_length: usize,
        cost: *mut f64,
    ) -> u32;
    pub(crate) fn maghnelt_frames_linearize(
        dof: u32,
        frames: *const f64,
        frames_length: usize,
        fixed: *const f64,
        fixed_length: usize,
        sigma: f64,
        actions: *const f64,
        actions_length: usize,
        decompositions: *const f64,
        decompositions_length: usize,
        residual: *mut f64,
        residual_length: usize,
        jacobian: *mut f64,
        jacobian_length: usize,
    ) -> u32;

    pub(crate) fn maghnelt_bundle_fit(
        counts: *const u32,
        counts_length: usize,
        points: *const f64,
        points_length: usize,
        fixed: *const f64,
        fixed_length: usize,
        out: *mut f64,
        out_length: usize,
    ) -> u32;
    pub(crate) fn maghnelt_bundle_linearize(
        dof: u32,
        counts: *const u32,
        counts_length: usize,
        points: *const f64,
        points_length: usize,
        d_state: *const f64,
        d_state_length: usize,
        fixed: *const f64,
        fixed_length: usize,
        sigma: f64,
        decomposition: *const f64,
        decomposition_length: usize,
        residual: *mut f64,
        residual_length: usize,
        jacobian: *mut f64,
        jacobian_length: usize,
    ) -> u32;

    pub(crate) fn maghnelt_matches_accumulate(
        dof: u32,
        matches: *const f64,
        matches_length: usize,
        action: *const f64,
        action_length: usize,
        map: *const u32,
        map_length: usize,
        hessian: *mut f64,
        hessian_length: usize,
        gradient: *mut f64,
        gradient_length: usize,
        cost: *mut f64,
    ) -> u32;
    pub(crate) fn maghnelt_matches_accumulate_transformed(
        dof: u32,
        matches: *const f64,
        matches_length: usize,
        action: *const f64,
        action_length: usize,
        map: *const u32,
        map_length: usize,
        shapes: *const u32,
        shapes_length: usize,
        transforms: *const f64,
        transforms_length: usize,
        hessian: *mut f64,
        hessian_length: usize,
        gradient: *mut f64,
        gradient_length: usize,
        cost: *mut f64,
    ) -> u32;
    pub(crate) fn maghnelt_matches_linearize(
        dof: u32,
        matches: *const f64,
        matches_length: usize,
        action: *const f64,
        action_length: usize,
        residual: *mut f64,
        residual_length: usize,
        jacobian: *mut f64,
        jacobian_length: usize,
    ) -> u32;
    pub(crate) fn maghnelt_match_linearize(
        dof: u32,
        record: *const f64,
        record_length: usize,
        world: *const f64,
        world_length: usize,
        d_state: *const f64,
        d_state_length: usize,
        d_extrinsic: *const f64,
        d_extrinsic_length: usize,
        residual: *mut f64,
        row: *mut f64,
        row_length: usize,
    ) -> u32;
}
