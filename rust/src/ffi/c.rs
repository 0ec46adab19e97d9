//! The functions of the linked libraries, each declared once. tests/header.rs compares them with the headers and with the proved sources.

/// A function of the header and the owned function of the same arguments and answer, whose name is behind the bar.
macro_rules! pairs {
    ($(pub fn $checked:ident | $owned:ident $arguments:tt -> $answer:ty;)*) => {
        unsafe extern "C" {
            $(
                pub fn $checked $arguments -> $answer;
                pub fn $owned $arguments -> $answer;
            )*
        }
    };
}

pairs! {
    pub fn dsq_add | dsq_owned_add(
        queue: *mut u64,
        store: *mut u8,
        store_length: usize,
        payload: *const u8,
        payload_length: usize,
        time: u64,
        stream_id: u16,
        ppid: u32,
        unordered: u8,
        has_lifetime: u8,
        lifetime: u64,
        has_retransmissions: u8,
        max_retransmissions: u16,
        lifecycle_id: u64,
    ) -> u32;
    pub fn dsq_produce | dsq_owned_produce(
        queue: *mut u64,
        store: *const u8,
        store_length: usize,
        events: *mut u64,
        events_length: usize,
        buffer: *mut u8,
        buffer_length: usize,
        out: *mut u64,
        time: u64,
        size: u64,
    ) -> u32;
    pub fn dsq_discard | dsq_owned_discard(
        queue: *mut u64,
        events: *mut u64,
        events_length: usize,
        out: *mut u64,
        stream_id: u16,
        message_id: u32,
    ) -> u32;
    pub fn dsq_set_buffered_amount_low_threshold | dsq_owned_set_buffered_amount_low_threshold(
        queue: *mut u64,
        events: *mut u64,
        events_length: usize,
        out: *mut u64,
        stream_id: u16,
        threshold: u64,
    ) -> u32;
    pub fn dsq_set_priority | dsq_owned_set_priority(queue: *mut u64, stream_id: u16, priority: u16) -> u32;
    pub fn dsq_prepare_reset_stream | dsq_owned_prepare_reset_stream(
        queue: *mut u64,
        events: *mut u64,
        events_length: usize,
        out: *mut u64,
        stream_id: u16,
    ) -> u32;
    pub fn dsq_save | dsq_owned_save(
        queue: *const u64,
        store: *const u8,
        store_length: usize,
        image: *mut u8,
        image_length: usize,
        out: *mut u64,
        time: u64,
    ) -> u32;
    pub fn dsq_make_reset_request | dsq_owned_make_reset_request(
        queue: *mut u64,
        handler: *mut u32,
        output: *mut u8,
        output_length: usize,
        out: *mut u64,
        response_number: u32,
        last_tsn: u32,
    ) -> u32;
    pub fn dsq_handle_reset_response | dsq_owned_handle_reset_response(
        queue: *mut u64,
        handler: *mut u32,
        bytes: *const u8,
        bytes_length: usize,
        out: *mut u64,
    ) -> u32;
    pub fn dsq_fill_packet | dsq_owned_fill_packet(
        queue: *mut u64,
        store: *const u8,
        store_length: usize,
        events: *mut u64,
        events_length: usize,
        packet: *mut u8,
        packet_length: usize,
        out: *mut u64,
        time: u64,
        limit: u64,
        source_port: u16,
        destination_port: u16,
        verification_tag: u32,
        tsn: u32,
    ) -> u32;
}

// The owned functions of another form than the header's: no refusal is left, so that the value is the answer.
unsafe extern "C" {
    pub fn dsq_owned_layout_5() -> u64;
    pub fn dsq_owned_packets_layout_5() -> u64;
    pub fn dsq_owned_enable_message_interleaving(queue: *mut u64, enabled: u8);
    pub fn dsq_owned_commit_reset_streams(queue: *mut u64);
    pub fn dsq_owned_rollback_reset_streams(queue: *mut u64);
    pub fn dsq_owned_reset(queue: *mut u64);
    pub fn dsq_owned_get_priority(queue: *const u64, stream_id: u16) -> u16;
    pub fn dsq_owned_buffered_amount(queue: *const u64, stream_id: u16) -> u64;
    pub fn dsq_owned_buffered_amount_low_threshold(queue: *const u64, stream_id: u16) -> u64;
    pub fn dsq_owned_has_data_to_send(queue: *const u64) -> u32;
    pub fn dsq_owned_has_streams_ready_to_be_reset(queue: *const u64) -> u32;
    pub fn dsq_owned_count_streams_ready_to_reset(queue: *const u64) -> u64;
    pub fn dsq_owned_reset_through_handler(queue: *mut u64, handler: *mut u32);
    pub fn dsq_owned_get_streams_ready_to_reset(queue: *mut u64, ids: *mut u16) -> u64;
}

// The others of the headers.
unsafe extern "C" {
    pub fn dsq_layout() -> u64;
    pub fn dsq_layout_5() -> u64;
    pub fn dsq_create(
        queue: *mut u64,
        store: *const u8,
        store_length: usize,
        payload_limit: u64,
        default_priority: u16,
        default_threshold: u64,
        total_threshold: u64,
        handover_with_data: u8,
        restart_rule: u8,
    ) -> u32;
    pub fn dsq_enable_message_interleaving(queue: *mut u64, enabled: u8) -> u32;
    pub fn dsq_plan_priorities(
        ids: *const u16,
        ids_length: usize,
        sizes: *const u64,
        sizes_length: usize,
        priorities: *mut u16,
        payload_limit: u64,
    ) -> u32;
    pub fn dsq_write_chunk(
        output: *mut u8,
        output_length: usize,
        payload: *const u8,
        payload_length: usize,
        out: *mut u64,
        kind: u8,
        tsn: u32,
        stream_id: u16,
        unordered: u8,
        ssn: u16,
        mid: u32,
        fsn: u32,
        ppid: u32,
        first: u8,
        last: u8,
    ) -> u32;
    pub fn dsq_read_chunk(bytes: *const u8, bytes_length: usize, out: *mut u64, chunk: *mut u64) -> u32;
    pub fn dsq_get_streams_ready_to_reset(queue: *mut u64, ids: *mut u16, out: *mut u64) -> u32;
    pub fn dsq_commit_reset_streams(queue: *mut u64) -> u32;
    pub fn dsq_rollback_reset_streams(queue: *mut u64) -> u32;
    pub fn dsq_reset(queue: *mut u64) -> u32;
    pub fn dsq_start_reset_handler(handler: *mut u32, number: u32) -> u32;
    pub fn dsq_reset_through_handler(queue: *mut u64, handler: *mut u32) -> u32;
    pub fn dsq_get_priority(queue: *const u64, out: *mut u64, stream_id: u16) -> u32;
    pub fn dsq_buffered_amount(queue: *const u64, out: *mut u64, stream_id: u16) -> u32;
    pub fn dsq_buffered_amount_low_threshold(queue: *const u64, out: *mut u64, stream_id: u16) -> u32;
    pub fn dsq_has_data_to_send(queue: *const u64, out: *mut u64) -> u32;
    pub fn dsq_has_streams_ready_to_be_reset(queue: *const u64, out: *mut u64) -> u32;
    pub fn dsq_count_streams_ready_to_reset(queue: *const u64, out: *mut u64) -> u32;
    pub fn dsq_total_buffered_amount(queue: *const u64) -> u64;
    pub fn dsq_is_empty(queue: *const u64) -> u32;
    pub fn dsq_free_bytes(queue: *const u64) -> u64;
    pub fn dsq_waiting_messages(queue: *const u64) -> u64;
    pub fn dsq_known_streams(queue: *const u64) -> u64;
    pub fn dsq_get_handover_readiness(queue: *const u64) -> u64;
    pub fn dsq_restore(
        queue: *mut u64,
        store: *mut u8,
        store_length: usize,
        image: *const u8,
        image_length: usize,
        time: u64,
    ) -> u32;
    pub fn dsr_layout() -> u64;
    pub fn dsr_layout_2() -> u64;
    pub fn dsr_create(receiver: *mut u64, store: *const u8, store_length: usize, i_data: u8, starting_tsn: u32) -> u32;
    pub fn dsr_receive(
        receiver: *mut u64,
        store: *mut u8,
        store_length: usize,
        bytes: *const u8,
        bytes_length: usize,
        out: *mut u64,
    ) -> u32;
    pub fn dsr_fetch(
        receiver: *mut u64,
        store: *const u8,
        store_length: usize,
        buffer: *mut u8,
        buffer_length: usize,
        out: *mut u64,
    ) -> u32;
}
