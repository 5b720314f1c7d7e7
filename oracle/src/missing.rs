//! What the published files name and the published part lacks.
//!
//! `BitReader`'s `f` and `position` are run, by the Rust's reader of `film_grain_params`, and so are the errors that the
//! two answer. The rest is there to compile: no ported function runs it, and what has no body would end the program.
#[derive(Debug, Clone, PartialEq, Eq)]
pub enum Error {
    UnexpectedEnd,
    FilmGrainPointCountOverflow,
    PartitionWalkOutOfRange,
}

pub mod bitreader {
    use super::Error;

    pub struct BitReader<'a> {
        data: &'a [u8],
        /// In bits.
        position: usize,
    }

    impl<'a> BitReader<'a> {
        pub fn new(data: &'a [u8]) -> Self {
            Self { data, position: 0 }
        }
        pub fn position(&self) -> usize {
            self.position
        }
        /// The specification's f(n), bit by bit, the highest first.
        pub fn f(&mut self, n: u32) -> Result<u64, Error> {
            let mut x = 0;
            for _ in 0..n {
                x = 2 * x + self.read_bit()?;
            }
            Ok(x)
        }
        fn read_bit(&mut self) -> Result<u64, Error> {
            let byte = self.data.get(self.position / 8);
            let byte = byte.ok_or(Error::UnexpectedEnd)?;
            let bit = byte >> (7 - self.position % 8) & 1;
            self.position += 1;
            Ok(bit.into())
        }
        pub fn su(&mut self, _n: u32) -> Result<i32, Error> {
            unimplemented!()
        }
        pub fn ns(&mut self, _n: u32) -> Result<u32, Error> {
            unimplemented!()
        }
    }
}

pub mod platform {
    pub fn clamp_threads(n: usize) -> usize {
        n
    }
}

pub mod cdf {
    pub const MI_SIZE: usize = 4;
    pub const MODE_NEARESTMV: u8 = 13;
    pub const MODE_GLOBALMV: u8 = 15;
    pub const MODE_GLOBAL_GLOBALMV: u8 = 23;
    pub const BLOCK_SIZES: usize = 22;
    pub const TX_WIDTH: [usize; 19] = [
        4, 8, 16, 32, 64, 4, 8, 8, 16, 16, 32, 32, 64, 4, 16, 8, 32, 16, 64,
    ];
    pub const TX_HEIGHT: [usize; 19] = [
        4, 8, 16, 32, 64, 8, 4, 16, 8, 32, 16, 64, 32, 16, 4, 32, 8, 64, 16,
    ];
    pub fn get_plane_residual_size(_s: usize, _p: u8, _x: u8, _y: u8) -> Option<usize> {
        unimplemented!()
    }
    pub fn num_4x4_blocks_wide(_s: usize) -> usize {
        unimplemented!()
    }
    pub fn num_4x4_blocks_high(_s: usize) -> usize {
        unimplemented!()
    }
}

pub mod tile_info {
    pub struct TileInfo {
        pub uniform_tile_spacing_flag: bool,
        pub tile_cols: u32,
        pub tile_rows: u32,
        pub tile_cols_log2: u32,
        pub tile_rows_log2: u32,
        pub context_update_tile_id: u32,
        pub tile_size_bytes: u8,
        pub mi_col_starts: Vec<u32>,
        pub mi_row_starts: Vec<u32>,
    }
}

pub mod frame_header {
    use crate::tile_info::TileInfo;
    use crate::uncompressed_header_tail::*;
    pub const PRIMARY_REF_NONE: u8 = 7;
    pub const ALL_FRAMES_PUB: u8 = 0xff;
    pub enum FrameType {
        Key,
    }
    pub struct FrameSize {
        pub frame_width: u32,
        pub frame_height: u32,
        pub render_width: u32,
        pub render_height: u32,
        pub superres_denom: u8,
        pub upscaled_width: u32,
        pub mi_cols: u32,
        pub mi_rows: u32,
        pub use_superres: bool,
        pub coded_denom: u8,
        pub render_and_frame_size_different: bool,
    }
    pub struct FrameHeader {
        pub show_existing_frame: bool,
        pub frame_to_show_map_idx: Option<u8>,
        pub display_frame_id: Option<u32>,
        pub frame_type: FrameType,
        pub frame_is_intra: bool,
        pub show_frame: bool,
        pub showable_frame: bool,
        pub error_resilient_mode: bool,
        pub disable_cdf_update: bool,
        pub allow_screen_content_tools: bool,
        pub force_integer_mv: bool,
        pub current_frame_id: u32,
        pub frame_size_override_flag: bool,
        pub order_hint: u32,
        pub primary_ref_frame: u8,
        pub refresh_frame_flags: u8,
        pub ref_order_hints: Option<[u32; 8]>,
        pub frame_size: Option<FrameSize>,
        pub allow_intrabc: bool,
        pub disable_frame_end_update_cdf: bool,
        pub tile_info: Option<TileInfo>,
        pub quantization_params: Option<QuantizationParams>,
        pub segmentation_params: Option<SegmentationParams>,
        pub delta_q_params: Option<DeltaQParams>,
        pub delta_lf_params: Option<DeltaLfParams>,
        pub loop_filter_params: Option<LoopFilterParams>,
        pub cdef_params: Option<CdefParams>,
        pub lr_params: Option<LrParams>,
        pub tx_mode: Option<TxMode>,
        pub reference_select: Option<bool>,
        pub skip_mode_present: Option<bool>,
        pub skip_mode_frame: Option<[u8; 2]>,
        pub allow_warped_motion: Option<bool>,
        pub reduced_tx_set: Option<bool>,
        pub global_motion_params: Option<GlobalMotionParams>,
        pub film_grain_params: Option<FilmGrainParams>,
        pub inter_refs: Option<u8>,
        pub bits_consumed: usize,
    }
}

pub mod sequence_header {
    pub const CP_UNSPECIFIED: u8 = 2;
    pub const TC_UNSPECIFIED: u8 = 2;
    pub const MC_UNSPECIFIED: u8 = 2;
    pub const CSP_UNKNOWN: u8 = 0;
    pub const SELECT_INTEGER_MV: u8 = 2;
    pub const SELECT_SCREEN_CONTENT_TOOLS: u8 = 2;
    pub struct ColorConfig {
        pub high_bitdepth: bool,
        pub twelve_bit: bool,
        pub bit_depth: u8,
        pub mono_chrome: bool,
        pub num_planes: u8,
        pub color_description_present_flag: bool,
        pub color_primaries: u8,
        pub transfer_characteristics: u8,
        pub matrix_coefficients: u8,
        pub color_range: bool,
        pub subsampling_x: bool,
        pub subsampling_y: bool,
        pub chroma_sample_position: u8,
        pub separate_uv_delta_q: bool,
    }
    pub struct OperatingPoint {
        pub operating_point_idc: u16,
        pub seq_level_idx: u8,
        pub seq_tier: u8,
        pub decoder_model_present_for_this_op: bool,
        pub operating_parameters_info: Option<u8>,
        pub initial_display_delay_present_for_this_op: bool,
        pub initial_display_delay_minus_1: Option<u8>,
    }
    pub struct SequenceHeader {
        pub seq_profile: u8,
        pub still_picture: bool,
        pub reduced_still_picture_header: bool,
        pub timing_info_present_flag: bool,
        pub timing_info: Option<u8>,
        pub decoder_model_info_present_flag: bool,
        pub decoder_model_info: Option<u8>,
        pub initial_display_delay_present_flag: bool,
        pub operating_points_cnt_minus_1: u8,
        pub operating_points: Vec<OperatingPoint>,
        pub frame_width_bits_minus_1: u8,
        pub frame_height_bits_minus_1: u8,
        pub max_frame_width_minus_1: u32,
        pub max_frame_height_minus_1: u32,
        pub frame_id_numbers_present_flag: bool,
        pub delta_frame_id_length_minus_2: u8,
        pub additional_frame_id_length_minus_1: u8,
        pub use_128x128_superblock: bool,
        pub enable_filter_intra: bool,
        pub enable_intra_edge_filter: bool,
        pub enable_interintra_compound: bool,
        pub enable_masked_compound: bool,
        pub enable_warped_motion: bool,
        pub enable_dual_filter: bool,
        pub enable_order_hint: bool,
        pub enable_jnt_comp: bool,
        pub enable_ref_frame_mvs: bool,
        pub seq_force_screen_content_tools: u8,
        pub seq_force_integer_mv: u8,
        pub order_hint_bits: u8,
        pub enable_superres: bool,
        pub enable_cdef: bool,
        pub enable_restoration: bool,
        pub color_config: ColorConfig,
        pub film_grain_params_present: bool,
        pub bits_consumed: usize,
    }
}

pub mod key_frame {
    pub const KEY_FRAME_MAX_DIM: u32 = 16384;
}
