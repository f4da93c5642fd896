//! A frame, after `execution_stack.rs`.

#[derive(Clone, Copy, PartialEq, Eq, Default, Debug)]
pub struct CallStackEntry {
    pub this_address: [u8; 20],
    pub msg_sender: [u8; 20],
    pub code_address: [u8; 20],
    pub base_memory_page: u32,
    pub code_page: u32,
    pub sp: u16,
    pub pc: u16,
    pub exception_handler_location: u16,
    pub ergs_remaining: u32,
    pub this_shard_id: u8,
    pub caller_shard_id: u8,
    pub code_shard_id: u8,
    pub is_static: bool,
    pub is_local_frame: bool,
    pub context_u128_value: u128,
    pub heap_bound: u32,
    pub aux_heap_bound: u32,
    pub total_pubdata_spent: i32,
    pub stipend: u32,
}

impl CallStackEntry {
    #[inline(always)]
    pub fn is_kernel_mode(&self) -> bool {
        self.this_address[0..18].iter().all(|&byte| byte == 0)
    }
}

#[inline(always)]
pub fn stack_page_from_base(base: u32) -> u32 {
    base.wrapping_add(1)
}
