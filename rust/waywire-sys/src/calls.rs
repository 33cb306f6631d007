//! The calls of waywire.h and waywire-socket.h.

use crate::types::*;
use std::ffi::{c_char, c_int, c_void};

extern "C" {
    // What numbers mean, and a report's line.
    pub fn waywire_strerror(status: u32) -> *const c_char;
    pub fn waywire_strspelling(spelling: u32) -> *const c_char;
    pub fn waywire_report_line(
        tables: *const waywire_tables,
        sender: u32,
        report: *const waywire_report,
        line: *mut c_char,
        room: usize,
    ) -> usize;

    // Tables.
    pub fn waywire_tables_core(tables: *mut *mut waywire_tables) -> u32;
    pub fn waywire_tables_core_unended(tables: *mut *mut waywire_tables) -> u32;
    pub fn waywire_tables_free(tables: *mut waywire_tables);
    pub fn waywire_tables_read(
        tables: *const waywire_tables,
        text: *const c_void,
        length: usize,
        more: *mut *mut waywire_tables,
        line: *mut usize,
        rule: *mut u32,
    ) -> u32;
    pub fn waywire_tables_interface(
        tables: *const waywire_tables,
        name: *const c_char,
        interface: *mut u16,
    ) -> u32;
    pub fn waywire_tables_name(
        tables: *const waywire_tables,
        interface: u16,
        name: *mut *const c_char,
        length: *mut usize,
    ) -> u32;
    pub fn waywire_tables_version(
        tables: *const waywire_tables,
        interface: u16,
        version: *mut u32,
    ) -> u32;
    pub fn waywire_tables_message(
        tables: *const waywire_tables,
        interface: u16,
        sender: u32,
        opcode: u16,
        message: *mut waywire_message,
        name: *mut *const c_char,
        length: *mut usize,
    ) -> u32;
    pub fn waywire_tables_kind(
        tables: *const waywire_tables,
        interface: u16,
        sender: u32,
        opcode: u16,
        index: usize,
        kind: *mut waywire_kind,
    ) -> u32;

    pub fn waywire_tables_decode(
        tables: *const waywire_tables,
        interface: u16,
        version: u32,
        sender: u32,
        bytes: *const c_void,
        length: usize,
        decoded: *mut waywire_decoded,
    ) -> u32;

    // Both ends.
    pub fn waywire_end_free(end: *mut waywire_end);
    pub fn waywire_end_display(end: *const waywire_end) -> waywire_object;
    pub fn waywire_end_live(
        end: *const waywire_end,
        object: waywire_object,
        interface: *mut u16,
        version: *mut u32,
    ) -> u32;
    pub fn waywire_end_object_count(end: *const waywire_end) -> usize;
    pub fn waywire_end_object_after(
        end: *const waywire_end,
        id: u32,
        object: *mut waywire_object,
    ) -> u32;
    pub fn waywire_end_more_tables(
        end: *mut waywire_end,
        text: *const c_void,
        length: usize,
        line: *mut usize,
        rule: *mut u32,
    ) -> u32;
    pub fn waywire_end_has_failed(end: *const waywire_end) -> bool;
    pub fn waywire_end_in_room(end: *const waywire_end) -> waywire_amounts;
    pub fn waywire_end_out_room(end: *const waywire_end) -> waywire_amounts;
    pub fn waywire_end_is_drained(end: *const waywire_end) -> bool;
    pub fn waywire_end_feed(
        end: *mut waywire_end,
        bytes: *const c_void,
        length: usize,
        tokens: *const u32,
        token_count: usize,
        fed: *mut waywire_amounts,
    ) -> u32;
    pub fn waywire_end_goes(
        end: *const waywire_end,
        bytes: usize,
        tokens: usize,
    ) -> waywire_amounts;
    pub fn waywire_end_take(
        end: *mut waywire_end,
        bytes: *mut c_void,
        length: usize,
        tokens: *mut u32,
        token_count: usize,
        taken: *mut waywire_amounts,
    ) -> u32;
    pub fn waywire_end_peek(
        end: *const waywire_end,
        parts: *mut waywire_part,
        tokens: *mut u32,
        room: usize,
        token_count: *mut usize,
    ) -> u32;
    pub fn waywire_end_sent(end: *mut waywire_end, bytes: usize) -> waywire_amounts;
    pub fn waywire_end_space(end: *mut waywire_end, parts: *mut waywire_part);
    pub fn waywire_end_received(
        end: *mut waywire_end,
        bytes: usize,
        tokens: *const u32,
        token_count: usize,
        fed: *mut waywire_amounts,
    ) -> u32;
    pub fn waywire_end_take_waiting_tokens(
        end: *mut waywire_end,
        tokens: *mut u32,
        token_count: usize,
        taken: *mut usize,
    ) -> u32;
    pub fn waywire_end_send(
        end: *mut waywire_end,
        target: waywire_object,
        opcode: u16,
        args: *const waywire_arg,
        arg_count: usize,
        made: *mut waywire_object,
        index: *mut usize,
    ) -> u32;
    pub fn waywire_end_send_words(
        end: *mut waywire_end,
        target: waywire_object,
        opcode: u16,
        words: *const u32,
        word_count: usize,
        index: *mut usize,
    ) -> u32;
    pub fn waywire_end_next(end: *mut waywire_end, report: *mut waywire_report) -> u32;

    // What a client alone has.
    pub fn waywire_client_new(
        tables: *const waywire_tables,
        sizes: *const waywire_sizes,
        client: *mut waywire_client,
    ) -> u32;
    pub fn waywire_client_made(client: waywire_client, made: *mut waywire_object) -> u32;
    pub fn waywire_client_bind(
        client: waywire_client,
        registry: waywire_object,
        name: u32,
        interface: *const c_char,
        version: u32,
        bound: *mut waywire_object,
    ) -> u32;
    pub fn waywire_client_bind_unannounced(
        client: waywire_client,
        registry: waywire_object,
        name: u32,
        interface: *const c_char,
        version: u32,
        bound: *mut waywire_object,
    ) -> u32;

    // What a server alone has.
    pub fn waywire_server_new(
        tables: *const waywire_tables,
        sizes: *const waywire_sizes,
        server: *mut waywire_server,
    ) -> u32;
    pub fn waywire_server_add_global(
        server: waywire_server,
        interface: u16,
        version: u32,
        name: *mut u32,
    ) -> u32;
    pub fn waywire_server_allow_globals(server: waywire_server, number: usize) -> u32;
    pub fn waywire_server_withdraw(server: waywire_server, name: u32) -> u32;
    pub fn waywire_server_announce(
        server: waywire_server,
        count: *mut usize,
        all: *mut bool,
    ) -> u32;
    pub fn waywire_server_drop_object(server: waywire_server, object: waywire_object) -> u32;
    pub fn waywire_server_end_object(server: waywire_server, object: waywire_object) -> u32;
    pub fn waywire_server_next_unanswered(
        server: waywire_server,
        report: *mut waywire_report,
    ) -> u32;
    pub fn waywire_server_post_error(
        server: waywire_server,
        object: waywire_object,
        code: u32,
        text: *const c_char,
    ) -> u32;

    // An inspector.
    pub fn waywire_inspector_new(
        tables: *const waywire_tables,
        limit: u32,
        inspector: *mut *mut waywire_inspector,
    ) -> u32;
    pub fn waywire_inspector_free(inspector: *mut waywire_inspector);
    pub fn waywire_inspector_pass(
        inspector: *mut waywire_inspector,
        sender: u32,
        bytes: *const c_void,
        length: usize,
        token_count: usize,
    ) -> u32;
    pub fn waywire_inspector_lines(
        inspector: *const waywire_inspector,
        length: *mut usize,
    ) -> *const c_char;
    pub fn waywire_inspector_verdict(
        inspector: *mut waywire_inspector,
        line: *mut *const c_char,
        length: *mut usize,
        broken: *mut bool,
    ) -> u32;
    pub fn waywire_inspector_judgement(
        inspector: *const waywire_inspector,
        judgement: *mut waywire_judgement,
    ) -> u32;
    pub fn waywire_inspector_judged(inspector: *const waywire_inspector) -> u64;
    pub fn waywire_inspector_undeserved(inspector: *const waywire_inspector, id: *mut u32) -> u64;
    pub fn waywire_inspector_follow(
        inspector: *mut waywire_inspector,
        sender: u32,
        bytes: *const c_void,
        length: usize,
    ) -> u32;
    pub fn waywire_inspector_ahead(
        inspector: *const waywire_inspector,
        sender: u32,
        message: *mut waywire_followed,
    ) -> u32;
    pub fn waywire_inspector_decode(
        inspector: *const waywire_inspector,
        sender: u32,
        message: *const waywire_followed,
        decoded: *mut waywire_decoded,
    ) -> u32;
    pub fn waywire_inspector_go_past(inspector: *mut waywire_inspector, sender: u32) -> u32;
    pub fn waywire_inspector_object(
        inspector: *const waywire_inspector,
        id: u32,
        known: *mut waywire_known,
    ) -> u32;
    pub fn waywire_inspector_id_count(inspector: *const waywire_inspector, maker: u32) -> usize;
    pub fn waywire_inspector_announced(
        inspector: *const waywire_inspector,
        name: u32,
        interface: u16,
    ) -> u32;

    // Sockets.
    pub fn waywire_socket_connect_to(name: *const c_char, milliseconds: c_int) -> c_int;
    pub fn waywire_socket_listen(name: *const c_char) -> *mut waywire_listening_socket;
    pub fn waywire_listening_socket_fd(listening: *const waywire_listening_socket) -> c_int;
    pub fn waywire_listening_socket_accept(listening: *const waywire_listening_socket) -> c_int;
    pub fn waywire_listening_socket_close(listening: *mut waywire_listening_socket);
    pub fn waywire_socket_send(
        socket: c_int,
        parts: *const waywire_part,
        descriptors: *const c_int,
        count: usize,
    ) -> isize;
    pub fn waywire_socket_receive(
        socket: c_int,
        parts: *const waywire_part,
        descriptors: *mut c_int,
        count: *mut usize,
    ) -> isize;
    pub fn waywire_socket_flush(socket: c_int, end: *mut waywire_end) -> c_int;
    pub fn waywire_socket_fill(socket: c_int, end: *mut waywire_end) -> isize;
}
