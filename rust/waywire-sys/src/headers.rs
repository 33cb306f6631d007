//! A test: the declarations of this crate are those of the headers.

use crate::numbers::NUMBERS;
use crate::system::{self, pollfd};
use crate::types::*;
use std::ffi::c_ulong;
use std::mem::{offset_of, size_of};
use std::process::Command;

/// The headers that have what is compared.
const HEADERS: [&str; 6] = ["errno", "fcntl", "poll", "stddef", "stdio", "waywire-socket"];

/// The size of each type and the offsets of its fields, each behind the words that C has for it.
macro_rules! layout {
    ($($type:ty, $header:literal: $($field:ident)*;)*) => {
        vec![$(
            (concat!("sizeof(", $header, ")").to_string(), size_of::<$type>()),
            $((
                concat!("offsetof(", $header, ", ", stringify!($field), ")").to_string(),
                offset_of!($type, $field),
            ),)*
        )*]
    };
}

fn sizes_and_offsets() -> Vec<(String, usize)> {
    layout! {
        u32, "waywire_status":;
        u32, "waywire_sender":;
        waywire_object, "waywire_object": birth id;
        waywire_arg, "waywire_arg": kind i u object bytes length;
        waywire_amounts, "waywire_amounts": bytes tokens;
        waywire_part, "waywire_part": bytes length;
        waywire_sizes, "waywire_sizes": out_bytes out_tokens in_bytes in_tokens limit;
        waywire_report, "waywire_report": kind opcode target arg_count tokens token_count id code named
            spelling text text_length place offset replaced interface forgotten version user
            replaced_user args;
        waywire_message, "waywire_message": since destroys destroyed arg_count;
        waywire_kind, "waywire_kind": kind nullable interface;
        waywire_decoded, "waywire_decoded": target opcode size name name_length arg_count place
            spelling interfaces args;
        waywire_client, "waywire_client": end;
        waywire_server, "waywire_server": end;
        waywire_judgement, "waywire_judgement": requests events left_to_server left_to_client index
            offset place fault spelling sender;
        waywire_known, "waywire_known": birth version interface is_known is_ending;
        waywire_followed, "waywire_followed": number index offset bytes length descriptor_count object
            target opcode size made made_version destroyed deleted made_interface is_read;
        pollfd, "struct pollfd": fd events revents;
        c_ulong, "nfds_t":;
    }
}

/// The numbers of the system, and their names in its headers.
fn system_numbers() -> Vec<(String, usize)> {
    let numbers = [
        ("F_SETFD", system::F_SETFD),
        ("FD_CLOEXEC", system::FD_CLOEXEC),
        ("F_DUPFD_CLOEXEC", system::F_DUPFD_CLOEXEC),
        ("EMFILE", system::EMFILE),
        ("EOVERFLOW", system::EOVERFLOW),
        ("ENOMEM", system::ENOMEM),
        ("ENOBUFS", system::ENOBUFS),
        ("ETOOMANYREFS", system::ETOOMANYREFS),
        ("POLLIN", system::POLLIN.into()),
        ("POLLOUT", system::POLLOUT.into()),
    ];
    numbers.map(|(name, number)| (name.to_string(), number as usize)).into()
}

/// What a program in C says of the headers: a number for each expression.
fn said_by_c(expressions: &[String]) -> Vec<usize> {
    let folder = std::env::temp_dir().join(format!("waywire-headers-{}", std::process::id()));
    std::fs::create_dir_all(&folder).unwrap();
    let lines: String =
        expressions.iter().map(|it| format!("printf(\"%zu\\n\", (size_t)({it}));\n")).collect();
    let source = folder.join("headers.c");
    let headers: String = HEADERS.iter().map(|it| format!("#include <{it}.h>\n")).collect();
    let text = format!("{headers}int main(void) {{\n{lines}return 0;\n}}\n");
    std::fs::write(&source, text).unwrap();
    let program = folder.join("headers");
    let built = Command::new("cc")
        .args(["-I", env!("WAYWIRE_INCLUDE"), "-o"])
        .args([&program, &source])
        .status()
        .expect("a compiler for C");
    assert!(built.success());
    let output = Command::new(&program).output().unwrap().stdout;
    std::fs::remove_dir_all(&folder).unwrap();
    let text = String::from_utf8(output).unwrap();
    text.lines().map(|it| it.parse().unwrap()).collect()
}

#[test]
fn declarations_are_those_of_the_headers() {
    let mut wanted = sizes_and_offsets();
    wanted.extend(NUMBERS.iter().map(|(name, number)| (name.to_string(), *number as usize)));
    wanted.extend(system_numbers());
    let expressions: Vec<String> = wanted.iter().map(|it| it.0.clone()).collect();
    let said = said_by_c(&expressions);
    let found: Vec<(String, usize)> = expressions.into_iter().zip(said).collect();
    assert_eq!(found, wanted);
}
