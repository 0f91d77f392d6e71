//! The functions of the library, as crates/bozterrun exports them: a slice passes as a pointer and its length, what
//! is answered as numbers. Each returns 0, the number of a refusal, 64 where there is nothing to give, or 66
//! where a message is not yet whole.

extern "C" {
    pub fn bozterrun_handshake_new(
        handshake: *mut u64,
        handshake_length: usize,
        name: *mut u8,
        name_length: usize,
        serial: u32,
        out: *mut u8,
        out_length: usize,
        count: *mut usize,
    ) -> u32;
    pub fn bozterrun_handshake_handshake_version(
        handshake: *mut u64,
        handshake_length: usize,
        name: *mut u8,
        name_length: usize,
        version: u32,
    ) -> u32;
    pub fn bozterrun_handshake_name(
        handshake: *mut u64,
        handshake_length: usize,
        name: *mut u8,
        name_length: usize,
        text: *const u8,
        text_length: usize,
    ) -> u32;
    pub fn bozterrun_handshake_context_type(
        handshake: *mut u64,
        handshake_length: usize,
        name: *mut u8,
        name_length: usize,
        context_type: u32,
    ) -> u32;
    pub fn bozterrun_handshake_interface_version(
        handshake: *mut u64,
        handshake_length: usize,
        name: *mut u8,
        name_length: usize,
        text: *const u8,
        text_length: usize,
        version: u32,
    ) -> u32;
    pub fn bozterrun_handshake_other(
        handshake: *mut u64,
        handshake_length: usize,
        name: *mut u8,
        name_length: usize,
        text: *const u8,
        text_length: usize,
    ) -> u32;
    pub fn bozterrun_handshake_finish(
        handshake: *mut u64,
        handshake_length: usize,
        name: *mut u8,
        name_length: usize,
        control: *mut u64,
        control_length: usize,
        out: *mut u8,
        out_length: usize,
        count: *mut usize,
    ) -> u32;
    pub fn bozterrun_handshake_pending_request(
        handshake: *mut u64,
        handshake_length: usize,
        name: *mut u8,
        name_length: usize,
        control: *mut u64,
        control_length: usize,
        message: *const u8,
        message_length: usize,
        out: *mut u8,
        out_length: usize,
        taken: *mut usize,
        count: *mut usize,
        begun: *mut u32,
        parse_error: *mut u32,
        first: *mut u32,
        second: *mut u32,
    ) -> u32;
    pub fn bozterrun_handshake_client(
        handshake: *const u64,
        handshake_length: usize,
        name: *const u8,
        name_length: usize,
        given: *mut u32,
        length: *mut usize,
        context_type: *mut u32,
    ) -> u32;

    pub fn bozterrun_pointer_motion_relative(
        control: *mut u64,
        control_length: usize,
        words: *mut u64,
        words_length: usize,
        reals: *mut f32,
        reals_length: usize,
        pointer: u64,
        x: f32,
        y: f32,
    ) -> u32;
    pub fn bozterrun_pointer_absolute_motion_absolute(
        control: *mut u64,
        control_length: usize,
        words: *mut u64,
        words_length: usize,
        reals: *mut f32,
        reals_length: usize,
        pointer_absolute: u64,
        x: f32,
        y: f32,
    ) -> u32;
    pub fn bozterrun_scroll_scroll(
        control: *mut u64,
        control_length: usize,
        words: *mut u64,
        words_length: usize,
        reals: *mut f32,
        reals_length: usize,
        scroll: u64,
        x: f32,
        y: f32,
    ) -> u32;
    pub fn bozterrun_scroll_scroll_discrete(
        control: *mut u64,
        control_length: usize,
        words: *mut u64,
        words_length: usize,
        reals: *mut f32,
        reals_length: usize,
        scroll: u64,
        x: i32,
        y: i32,
    ) -> u32;
    pub fn bozterrun_scroll_scroll_stop(
        control: *mut u64,
        control_length: usize,
        words: *mut u64,
        words_length: usize,
        reals: *mut f32,
        reals_length: usize,
        scroll: u64,
        x: u32,
        y: u32,
        is_cancel: u32,
    ) -> u32;
    pub fn bozterrun_button_button(
        control: *mut u64,
        control_length: usize,
        words: *mut u64,
        words_length: usize,
        reals: *mut f32,
        reals_length: usize,
        interface: u64,
        button: u32,
        state: u32,
    ) -> u32;
    pub fn bozterrun_keyboard_key(
        control: *mut u64,
        control_length: usize,
        words: *mut u64,
        words_length: usize,
        reals: *mut f32,
        reals_length: usize,
        keyboard: u64,
        key: u32,
        state: u32,
    ) -> u32;
    pub fn bozterrun_text_keysym(
        control: *mut u64,
        control_length: usize,
        words: *mut u64,
        words_length: usize,
        reals: *mut f32,
        reals_length: usize,
        interface: u64,
        keysym: u32,
        state: u32,
    ) -> u32;
    pub fn bozterrun_text_utf8(
        control: *mut u64,
        control_length: usize,
        words: *mut u64,
        words_length: usize,
        reals: *mut f32,
        reals_length: usize,
        texts: *mut u8,
        texts_length: usize,
        interface: u64,
        text: *const u8,
        text_length: usize,
    ) -> u32;
    pub fn bozterrun_touchscreen_down(
        control: *mut u64,
        control_length: usize,
        words: *mut u64,
        words_length: usize,
        reals: *mut f32,
        reals_length: usize,
        touchscreen: u64,
        touchid: u32,
        x: f32,
        y: f32,
    ) -> u32;
    pub fn bozterrun_touchscreen_motion(
        control: *mut u64,
        control_length: usize,
        words: *mut u64,
        words_length: usize,
        reals: *mut f32,
        reals_length: usize,
        touchscreen: u64,
        touchid: u32,
        x: f32,
        y: f32,
    ) -> u32;
    pub fn bozterrun_touchscreen_up(
        control: *mut u64,
        control_length: usize,
        words: *mut u64,
        words_length: usize,
        reals: *mut f32,
        reals_length: usize,
        touchscreen: u64,
        touchid: u32,
    ) -> u32;
    pub fn bozterrun_touchscreen_cancel(
        control: *mut u64,
        control_length: usize,
        words: *mut u64,
        words_length: usize,
        reals: *mut f32,
        reals_length: usize,
        touchscreen: u64,
        version: u32,
        touchid: u32,
        refused_interface: *mut u32,
        refused_version: *mut u32,
    ) -> u32;
    pub fn bozterrun_device_release(
        control: *mut u64,
        control_length: usize,
        words: *mut u64,
        words_length: usize,
        reals: *mut f32,
        reals_length: usize,
        device: u64,
        clock: u64,
    ) -> u32;
    pub fn bozterrun_device_start_emulating(
        control: *mut u64,
        control_length: usize,
        words: *mut u64,
        words_length: usize,
        reals: *mut f32,
        reals_length: usize,
        device: u64,
        last_serial: u32,
        sequence: u32,
        clock: u64,
    ) -> u32;
    pub fn bozterrun_device_stop_emulating(
        control: *mut u64,
        control_length: usize,
        words: *mut u64,
        words_length: usize,
        reals: *mut f32,
        reals_length: usize,
        device: u64,
        last_serial: u32,
        clock: u64,
    ) -> u32;
    pub fn bozterrun_device_ready(
        control: *mut u64,
        control_length: usize,
        words: *mut u64,
        words_length: usize,
        reals: *mut f32,
        reals_length: usize,
        device: u64,
        clock: u64,
    ) -> u32;
    pub fn bozterrun_device_frame(
        control: *mut u64,
        control_length: usize,
        words: *mut u64,
        words_length: usize,
        reals: *mut f32,
        reals_length: usize,
        device: u64,
        last_serial: u32,
        timestamp: u64,
    ) -> u32;
    pub fn bozterrun_seat_bind(
        control: *mut u64,
        control_length: usize,
        words: *mut u64,
        words_length: usize,
        reals: *mut f32,
        reals_length: usize,
        seat: u64,
        capabilities: u64,
    ) -> u32;
    pub fn bozterrun_seat_request_device(
        control: *mut u64,
        control_length: usize,
        words: *mut u64,
        words_length: usize,
        reals: *mut f32,
        reals_length: usize,
        seat: u64,
        capabilities: u64,
    ) -> u32;
    pub fn bozterrun_seat_release(
        control: *mut u64,
        control_length: usize,
        words: *mut u64,
        words_length: usize,
        reals: *mut f32,
        reals_length: usize,
        seat: u64,
        out: *mut u8,
        out_length: usize,
        count: *mut usize,
    ) -> u32;
    pub fn bozterrun_interface_release(
        control: *mut u64,
        control_length: usize,
        capability: u64,
        interface: u64,
        out: *mut u8,
        out_length: usize,
        count: *mut usize,
    ) -> u32;
    pub fn bozterrun_connection_sync(
        control: *const u64,
        control_length: usize,
        callback: u64,
        version: u32,
        out: *mut u8,
        out_length: usize,
        count: *mut usize,
        refused_interface: *mut u32,
        refused_version: *mut u32,
    ) -> u32;
    pub fn bozterrun_connection_disconnect(
        control: *mut u64,
        control_length: usize,
        words: *mut u64,
        words_length: usize,
        reals: *mut f32,
        reals_length: usize,
    ) -> u32;
    pub fn bozterrun_pingpong_done(control: *const u64, control_length: usize) -> u32;
    pub fn bozterrun_unexpected_handshake(
        control: *const u64,
        control_length: usize,
        opcode: u32,
        value: u32,
        text: *const u8,
        text_length: usize,
    ) -> u32;

    pub fn bozterrun_handle_requests(
        control: *mut u64,
        control_length: usize,
        words: *mut u64,
        words_length: usize,
        reals: *mut f32,
        reals_length: usize,
        texts: *mut u8,
        texts_length: usize,
        records: *const u64,
        records_length: usize,
        points: *const f32,
        points_length: usize,
        lent: *const u8,
        lent_length: usize,
        clock: u64,
        out: *mut u8,
        out_length: usize,
        accepted: *mut usize,
        count: *mut usize,
        refused_interface: *mut u32,
        refused_version: *mut u32,
    ) -> u32;

    pub fn bozterrun_pending_request(
        control: *mut u64,
        control_length: usize,
        words: *mut u64,
        words_length: usize,
        reals: *mut f32,
        reals_length: usize,
        texts: *mut u8,
        texts_length: usize,
        message: *const u8,
        message_length: usize,
        clock: u64,
        out: *mut u8,
        out_length: usize,
        taken: *mut usize,
        count: *mut usize,
        parse_error: *mut u32,
        first: *mut u32,
        second: *mut u32,
    ) -> u32;

    pub fn bozterrun_next_request(
        control: *mut u64,
        control_length: usize,
        words: *const u64,
        words_length: usize,
        reals: *const f32,
        reals_length: usize,
        texts: *const u8,
        texts_length: usize,
        numbers: *mut [u64; 5],
        coordinates: *mut [f32; 2],
        buffer: *mut u8,
        buffer_length: usize,
    ) -> u32;

    pub fn bozterrun_add_seat(
        control: *mut u64,
        control_length: usize,
        given: u32,
        name: *const u8,
        name_length: usize,
        capabilities: u64,
        out: *mut u8,
        out_length: usize,
        count: *mut usize,
        id: *mut u64,
    ) -> u32;
    pub fn bozterrun_add_device(
        control: *mut u64,
        control_length: usize,
        seat: u64,
        given: u32,
        name: *const u8,
        name_length: usize,
        device_type: u32,
        capabilities: u64,
        out: *mut u8,
        out_length: usize,
        count: *mut usize,
        id: *mut u64,
    ) -> u32;
    pub fn bozterrun_remove_seat(
        control: *mut u64,
        control_length: usize,
        words: *mut u64,
        words_length: usize,
        reals: *mut f32,
        reals_length: usize,
        seat: u64,
        out: *mut u8,
        out_length: usize,
        count: *mut usize,
    ) -> u32;
    pub fn bozterrun_remove_device(
        control: *mut u64,
        control_length: usize,
        words: *mut u64,
        words_length: usize,
        reals: *mut f32,
        reals_length: usize,
        device: u64,
        out: *mut u8,
        out_length: usize,
        count: *mut usize,
    ) -> u32;
    pub fn bozterrun_resumed(
        control: *mut u64,
        control_length: usize,
        device: u64,
        out: *mut u8,
        out_length: usize,
        count: *mut usize,
    ) -> u32;
    pub fn bozterrun_paused(
        control: *mut u64,
        control_length: usize,
        device: u64,
        out: *mut u8,
        out_length: usize,
        count: *mut usize,
    ) -> u32;
    pub fn bozterrun_start_emulating(
        control: *mut u64,
        control_length: usize,
        device: u64,
        sequence: u32,
        out: *mut u8,
        out_length: usize,
        count: *mut usize,
    ) -> u32;
    pub fn bozterrun_stop_emulating(
        control: *mut u64,
        control_length: usize,
        device: u64,
        out: *mut u8,
        out_length: usize,
        count: *mut usize,
    ) -> u32;
    pub fn bozterrun_frame(
        control: *mut u64,
        control_length: usize,
        device: u64,
        time: u64,
        out: *mut u8,
        out_length: usize,
        count: *mut usize,
    ) -> u32;
    pub fn bozterrun_disconnected(
        control: *mut u64,
        control_length: usize,
        words: *mut u64,
        words_length: usize,
        reals: *mut f32,
        reals_length: usize,
        reason: u32,
        given: u32,
        explanation: *const u8,
        explanation_length: usize,
        out: *mut u8,
        out_length: usize,
        count: *mut usize,
    ) -> u32;
    pub fn bozterrun_last_serial(control: *const u64, control_length: usize, serial: *mut u64) -> u32;
    pub fn bozterrun_has_interface(
        control: *const u64,
        control_length: usize,
        name: *const u8,
        name_length: usize,
        truth: *mut u64,
    ) -> u32;
    pub fn bozterrun_interface_version(
        control: *const u64,
        control_length: usize,
        name: *const u8,
        name_length: usize,
        version: *mut u64,
    ) -> u32;
    pub fn bozterrun_has_capability(
        control: *const u64,
        control_length: usize,
        device: u64,
        capability: u64,
        truth: *mut u64,
    ) -> u32;

    pub fn bozterrun_write_message(
        interface: u32,
        record: *const u8,
        record_length: usize,
        out: *mut u8,
        out_length: usize,
        count: *mut usize,
    ) -> u32;
    pub fn bozterrun_read_message(
        interface: u32,
        message: *const u8,
        message_length: usize,
        out: *mut u8,
        out_length: usize,
        count: *mut usize,
    ) -> u32;
}

#[cfg(test)]
extern "C" {
    pub fn bozterrun_handshake_length() -> usize;
    pub fn bozterrun_name_length() -> usize;
    pub fn bozterrun_control_length() -> usize;
    pub fn bozterrun_words_length() -> usize;
    pub fn bozterrun_reals_length() -> usize;
    pub fn bozterrun_texts_length() -> usize;
    pub fn bozterrun_number(place: usize) -> u64;
}
