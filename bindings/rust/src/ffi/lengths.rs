//! The C entries that tell the lengths of a call's lists, in the order of its list parameters, at the front of `lengths`.

unsafe extern "C" {
    pub fn geopotential_zeros_lengths(nmax: usize, lengths: *mut usize, lengths_len: usize) -> u32;
    pub fn geopotential_truncated_lengths(nmax: usize, cut: usize, lengths: *mut usize, lengths_len: usize) -> u32;
    pub fn geopotential_rescaled_lengths(nmax: usize, lengths: *mut usize, lengths_len: usize) -> u32;
    pub fn geopotential_degree_variances_lengths(nmax: usize, lengths: *mut usize, lengths_len: usize) -> u32;
    pub fn geopotential_degree_amplitudes_lengths(nmax: usize, lengths: *mut usize, lengths_len: usize) -> u32;
    pub fn geopotential_model_read_lengths(bytes: *const u8, bytes_len: usize, lengths: *mut usize, lengths_len: usize) -> u32;
    pub fn geopotential_model_write_lengths(nmax: usize, dated: u32, lengths: *mut usize, lengths_len: usize) -> u32;
    pub fn geopotential_legendre_new_lengths(nmax: usize, lengths: *mut usize, lengths_len: usize) -> u32;
    pub fn geopotential_legendre_grow_lengths(nmax: usize, lengths: *mut usize, lengths_len: usize) -> u32;
    pub fn geopotential_legendre_compute_lengths(nmax: usize, lengths: *mut usize, lengths_len: usize) -> u32;
    pub fn geopotential_legendre_compute_with_derivative_lengths(nmax: usize, lengths: *mut usize, lengths_len: usize) -> u32;
    pub fn geopotential_gauss_legendre_lengths(n: usize, lengths: *mut usize, lengths_len: usize) -> u32;
    pub fn geopotential_grid_lengths(nmax: usize, rows: usize, longitudes: usize, lengths: *mut usize, lengths_len: usize) -> u32;
    pub fn geopotential_partials_lengths(nmax: usize, lengths: *mut usize, lengths_len: usize) -> u32;
    pub fn geopotential_partials_along_lengths(nmax: usize, points: usize, lengths: *mut usize, lengths_len: usize) -> u32;
    pub fn geopotential_second_partials_lengths(nmax: usize, lengths: *mut usize, lengths_len: usize) -> u32;
    pub fn geopotential_second_partials_along_lengths(nmax: usize, points: usize, lengths: *mut usize, lengths_len: usize) -> u32;
    pub fn geopotential_analysis_lengths(nmax: usize, lengths: *mut usize, lengths_len: usize) -> u32;
    pub fn geopotential_symmetric_eigen_lengths(n: usize, lengths: *mut usize, lengths_len: usize) -> u32;
    pub fn geopotential_householder_ql_lengths(n: usize, lengths: *mut usize, lengths_len: usize) -> u32;
    pub fn geopotential_polar_cap_lengths(lmax: usize, lengths: *mut usize, lengths_len: usize) -> u32;
    pub fn geopotential_concentration_matrix_lengths(lmax: usize, nodes: usize, lengths: *mut usize, lengths_len: usize) -> u32;
    pub fn geopotential_region_lengths(lmax: usize, nodes: usize, lengths: *mut usize, lengths_len: usize) -> u32;
    pub fn geopotential_polygon_intervals_lengths(vertices: usize, lengths: *mut usize, lengths_len: usize) -> u32;
    pub fn geopotential_polygon_breaks_lengths(vertices: usize, lengths: *mut usize, lengths_len: usize) -> u32;
    pub fn geopotential_basin_kernel_lengths(lmax: usize, nodes: usize, lengths: *mut usize, lengths_len: usize) -> u32;
}
