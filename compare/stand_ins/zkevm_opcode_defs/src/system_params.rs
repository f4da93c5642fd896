//! System constants. Three of them are document 01's settings, chosen when the program is built.

/// Depth limit: `COMPARE_DEPTH_LIMIT`, 4 if not given.
pub const VM_MAX_STACK_DEPTH: u32 = chosen(option_env!("COMPARE_DEPTH_LIMIT"), 4);

/// Near-call multiplier: `COMPARE_MULTIPLIER`, 1 if not given.
pub const INTERNAL_ERGS_TO_VISIBLE_ERGS_CONVERSION_CONSTANT: u32 = chosen(option_env!("COMPARE_MULTIPLIER"), 1);

/// Time step of a cycle: `COMPARE_TIME_STEP`, 4 if not given.
pub const TIME_DELTA_PER_CYCLE: u32 = chosen(option_env!("COMPARE_TIME_STEP"), 4);

// What follows is named by the sources but read by no cycle of the comparison.
pub const VM_INITIAL_FRAME_ERGS: u32 = 0;
pub const STORAGE_AUX_BYTE: u8 = 0;
pub const STARTING_TIMESTAMP: u32 = 0;
pub const STARTING_BASE_PAGE: u32 = 0;
pub const UNMAPPED_PAGE: u32 = 0;
pub const INITIAL_SP_ON_FAR_CALL: u64 = 0;
pub const NEW_MEMORY_PAGES_PER_FAR_CALL: u32 = 0;
pub const MEMORY_GROWTH_ERGS_PER_BYTE: u32 = 1;
pub static STIPENDS_AND_EXTRA_COSTS_TABLE: [(u32, u32); 1 << 16] = [(0, 0); 1 << 16];

/// A setting's decimal digits, or its default. Anything else stops the build.
const fn chosen(text: Option<&str>, default: u32) -> u32 {
    let Some(text) = text else { return default };
    let digits = text.as_bytes();
    assert!(!digits.is_empty(), "a setting is empty");
    let mut value = 0;
    let mut i = 0;
    while i < digits.len() {
        assert!(digits[i].is_ascii_digit(), "a setting is not a decimal number");
        value = value * 10 + (digits[i] - b'0') as u32;
        i += 1;
    }
    value
}
