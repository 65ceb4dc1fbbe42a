//! What tools/stack.awk makes of small assembler texts: the bytes that they take, and a refusal where those cannot be counted or are too many.

use std::fs;
use std::path::Path;
use std::process::Command;

const LIMIT: usize = 512;
const OUTSIDE: usize = 64;

/// Functions one after another, each by its name and its instructions; the first is exported.
fn text(functions: &[(&str, &str)]) -> String {
    let mut text = format!("\t.globl\t{}\n", functions[0].0);
    for (i, (name, body)) in functions.iter().enumerate() {
        text += &format!("\t.type\t{name},@function\n{name}:\n");
        for line in body.split("; ") {
            let tab = if line.ends_with(':') { "" } else { "\t" };
            text += &format!("{tab}{line}\n");
        }
        text += &format!(".Lfunc_end{i}:\n");
    }
    text
}

/// Frames, each by its function and the places in it: an offset, a type and a size.
fn layout(frames: &[(&str, &[(i32, &str, u32)])]) -> String {
    let mut said = String::new();
    for (name, places) in frames {
        said += &format!("remark: <unknown>:0:0: \nFunction: {name}\n");
        for (offset, sort, size) in *places {
            said += &format!("Offset: [SP{offset:+}], Type: {sort}, Align: 8, Size: {size}\n");
        }
    }
    said
}

/// The first line that is printed, or what is said where that fails.
fn counted(label: &str, machine: &str, layout: &str, text: &str) -> Result<String, String> {
    let folder = Path::new(env!("CARGO_TARGET_TMPDIR"));
    let [remarks, code] = ["layout", "s"].map(|ending| folder.join(format!("{label}.{ending}")));
    fs::write(&remarks, layout).unwrap();
    fs::write(&code, text).unwrap();
    let ran = Command::new("awk")
        .arg("-f")
        .arg(Path::new(env!("CARGO_MANIFEST_DIR")).join("../tools/stack.awk"))
        .args([
            "-v",
            &format!("machine={machine}"),
            "-v",
            &format!("outside={OUTSIDE}"),
            "-v",
            &format!("limit={LIMIT}"),
        ])
        .arg("part=layout")
        .arg(&remarks)
        .arg("part=text")
        .arg(&code)
        .output()
        .expect("awk runs");
    let line = |bytes: &[u8]| String::from_utf8_lossy(bytes).lines().next().unwrap_or_default().to_string();
    if ran.status.success() {
        Ok(line(&ran.stdout))
    } else {
        Err(line(&ran.stderr))
    }
}

#[test]
fn bytes_on_x86_64() {
    let here = |frames: &[(&str, &[(i32, &str, u32)])], functions: &[(&str, &str)]| {
        counted("bytes-x86_64", "x86_64", &layout(frames), &text(functions)).unwrap()
    };
    assert_eq!(here(&[], &[("f", "retq")]), "f\t8\tf 8");
    // an alignment, a call of the C library
    assert_eq!(here(&[], &[("f", "pushq\t%rax; callq\tmemset@PLT; popq\t%rcx; retq")]), "f\t88\tf 16, memset 72");
    // a frame on one of two paths alone, with an argument of the caller's
    let f = "testl\t%edi, %edi; je\t.L1; pushq\t%rbx; subq\t$48, %rsp; movq\t%rax, 8(%rsp); addq\t$48, %rsp; popq\t%rbx; .L1:; retq";
    let frame: &[(i32, &str, u32)] = &[(8, "Fixed", 8), (-8, "Spill", 8), (-56, "Variable", 48)];
    assert_eq!(here(&[("f", frame)], &[("f", f)]), "f\t72\targuments 8, f 64");
    // below the stack pointer, in a function that another calls, and that a third takes the place of
    let below = "movq\t%rax, -64(%rsp); retq";
    let laid: &[(&str, &[(i32, &str, u32)])] = &[("\"a::b\"", &[(-64, "Variable", 64)])];
    assert_eq!(
        here(laid, &[("f", "pushq\t%rax; callq\tg; popq\t%rcx; retq"), ("g", "jmp\t\"a::b\""), ("\"a::b\"", below)]),
        "f\t88\tf 16, g 0, a::b 72"
    );
}

#[test]
fn bytes_on_arm() {
    let here = |frames: &[(&str, &[(i32, &str, u32)])], functions: &[(&str, &str)]| {
        counted("bytes-aarch64", "aarch64", &layout(frames), &text(functions)).unwrap()
    };
    assert_eq!(here(&[], &[("f", "ret")]), "f\t0\tf 0");
    let frame: &[(i32, &str, u32)] = &[(-8, "Spill", 8), (-16, "Spill", 8)];
    let f = "cbz\tx0, .L1; stp\tx30, x19, [sp, #-16]!; sub\tsp, sp, #128; bl\tg; add\tsp, sp, #128; ldp\tx30, x19, [sp], #16; .L1:; ret";
    let g = "sub\tsp, sp, #32; str\tx0, [sp, #8]; add\tsp, sp, #32; b\tmemcpy";
    assert_eq!(
        here(&[("f", frame), ("g", &[(-24, "Variable", 8)])], &[("f", f), ("g", g)]),
        "f\t208\tf 144, g 0, memcpy 64"
    );
    assert_eq!(
        here(
            &[("f", &[(-288, "Variable", 288)])],
            &[("f", "sub\tsp, sp, #288; str\tx0, [sp]; add\tsp, sp, #288; ret")]
        ),
        "f\t288\tf 288"
    );
}

/// Each of these is refused, in words that say why.
fn refused(machine: &str, cases: &[(&str, &[(&str, &str)])]) {
    for (i, (why, functions)) in cases.iter().enumerate() {
        let said = counted(&format!("refused-{machine}-{i}"), machine, "", &text(functions));
        assert!(said.as_ref().is_err_and(|said| said.contains(why)), "for `{why}`: {said:?}");
    }
}

#[test]
fn refusals_on_x86_64() {
    let call_f = "pushq\t%rax; callq\tf; popq\t%rcx; retq";
    refused(
        "x86_64",
        &[
            ("f: calls itself", &[("f", call_f)]),
            ("f: calls itself", &[("f", "jmp\tg"), ("g", call_f)]),
            ("not to a name", &[("f", "pushq\t%rax; callq\t*%rax; popq\t%rcx; retq")]),
            ("not to a name", &[("f", "callq\t*malloc@GOTPCREL(%rip); retq")]),
            ("not to a name", &[("f", "jmpq\t*%rax")]),
            ("moves the stack pointer", &[("f", "subq\t%rax, %rsp; retq")]),
            ("moves the stack pointer", &[("f", "andq\t$-32, %rsp; retq")]),
            ("moves the stack pointer", &[("f", "movq\t%rbp, %rsp; retq")]),
            ("leave", &[("f", "leave; retq")]),
            ("two paths meet", &[("f", "je\t.L1; pushq\t%rbx; .L1:; ud2")]),
            ("two paths meet", &[("f", ".L1:; pushq\t%rbx; jne\t.L1; ud2")]),
            ("returns with 8 bytes", &[("f", "pushq\t%rbx; retq")]),
            ("leaves for g with 8 bytes", &[("f", "pushq\t%rbx; jmp\tg"), ("g", "retq")]),
            ("takes more off", &[("f", "popq\t%rbx; retq")]),
            ("past its end", &[("f", "nop")]),
            ("nothing is known of it", &[("f", "jmp\tmalloc@PLT")]),
            ("is not laid out", &[("f", "movq\t%rax, -16(%rsp); retq")]),
            ("data amid the code", &[("f", ".byte\t15; retq")]),
            ("takes 528 bytes of stack, more than 512", &[("f", "subq\t$520, %rsp; addq\t$520, %rsp; retq")]),
        ],
    );
}

#[test]
fn refusals_on_arm() {
    refused(
        "aarch64",
        &[
            ("f: calls itself", &[("f", "b\tg"), ("g", "bl\tf; ret")]),
            ("not to a name", &[("f", "blr\tx8; ret")]),
            ("not to a name", &[("f", "br\tx8")]),
            ("moves the stack pointer", &[("f", "sub\tsp, sp, x9; ret")]),
            ("moves the stack pointer", &[("f", "mov\tsp, x29; ret")]),
            ("moves the stack pointer", &[("f", "ldr\tx0, [sp], x9; ret")]),
            ("two paths meet", &[("f", "cbz\tx0, .L1; sub\tsp, sp, #16; .L1:; brk\t#1")]),
            ("returns with 16 bytes", &[("f", "sub\tsp, sp, #16; ret")]),
            ("nothing is known of it", &[("f", "bl\tmalloc; ret")]),
            ("is not laid out", &[("f", "str\tx0, [sp, #8]; ret")]),
            ("takes 4096 bytes", &[("f", "sub\tsp, sp, #1, lsl #12; add\tsp, sp, #1, lsl #12; ret")]),
        ],
    );
}

#[test]
fn refusals_of_a_layout() {
    let code = text(&[("f", "movq\t%rax, -16(%rsp); retq")]);
    let said = counted("short", "x86_64", &layout(&[("f", &[(-8, "Variable", 8)])]), &code);
    assert!(said.as_ref().is_err_and(|said| said.contains("names 16 bytes below")), "{said:?}");
    let said = counted("variable", "x86_64", &layout(&[("f", &[(-8, "VariableSized", 1)])]), &code);
    assert!(said.as_ref().is_err_and(|said| said.contains("a place on the stack that is not known")), "{said:?}");
    let said = counted("none", "x86_64", "", &code.replace(".globl", ".local"));
    assert!(said.as_ref().is_err_and(|said| said.contains("no function is exported")), "{said:?}");
}
