//! Finds the Rust's sources and prepares the three copies of its compiler.
//!
//! The unmodified files are built where they stand, by path. Beside them, in the build's own folder: `costed.rs`, the compiler with the
//! text of src/accessor.rs appended, `counted.rs`, the same with counters, document 01's room limits and document 02's limit of height put in
//! by exact text, and `types`, the type rules with u for d:X in Tapscript put in by exact text.

use std::path::{Path, PathBuf};
use std::{env, fs, process};

/// Says what is wrong and ends the build.
fn stop(message: &str) -> ! {
    eprintln!("bench: {message}");
    process::exit(1);
}

/// The folder that holds src/policy/compiler.rs.
fn sources(bench: &Path) -> PathBuf {
    let given = env::var_os("MINISCRIPT_SRC").map(PathBuf::from);
    let at = given.clone().unwrap_or_else(|| bench.join("../../shared/docs/src"));
    match at.canonicalize() {
        Ok(found) if found.join("src/policy/compiler.rs").is_file() => found,
        _ => stop(&format!(
            "the Rust's sources are not at {} ({}); MINISCRIPT_SRC names the folder that holds src/policy/compiler.rs",
            at.display(),
            if given.is_some() { "from MINISCRIPT_SRC" } else { "MINISCRIPT_SRC is not set" }
        )),
    }
}

/// The text with `old`, which must stand in it exactly once, replaced by `new`.
fn patched(text: &str, old: &str, new: &str) -> String {
    match text.matches(old).count() {
        1 => text.replacen(old, new, 1),
        n => stop(&format!("the text `{old}` stands {n} times in the Rust's file, not once")),
    }
}

/// types/correctness.rs with one rule changed: u of d:X is src/tapscript.rs's answer, which no constant function can ask for.
fn correctness(text: &str) -> String {
    let rule = "    pub const fn cast_dupif(self) -> Result<Self, ErrorKind> {
        Ok(Correctness {
            base: match self.base {
                Base::V => Base::B,
                x => return Err(ErrorKind::ChildBase1(x)),
            },
            input: match self.input {
                Input::Zero => Input::OneNonZero,
                _ => return Err(ErrorKind::NonZeroDupIf),
            },
            dissatisfiable: true,
            unit: false,
";
    let changed = patched(rule, "unit: false", "unit: crate::tapscript::unit()");
    patched(text, rule, &patched(&changed, "pub const fn", "pub fn"))
}

/// types/mod.rs, where the same rule is no constant function any more.
fn types(text: &str) -> String {
    patched(text, "    pub const fn cast_dupif(self)", "    pub fn cast_dupif(self)")
}

/// The compiler with counters and limits: each patch calls src/room.rs and changes nothing else.
fn counted(text: &str) -> String {
    let elem_cost = "    let elem_cost = elem.cost_1d(sat_prob, dissat_prob);\n";
    let insert = "        map.insert(elem_key, elem);\n";
    let queue = "    let mut cast_stack: VecDeque<AstElemExt<Pk, Ctx>> = VecDeque::new();\n";
    let pop = "        let current = cast_stack.pop_front().unwrap();\n";
    let store = "        policy_cache.insert((policy.clone(), ord_sat_prob, ord_dissat_prob), ret.clone());\n";
    let hit = "        return Ok(ret.clone());\n";
    let gain = "                let diff = be.cost_1d(sp, dp) - bw.cost_1d(sp, dp);\n";
    let too_tall = "    if crate::room::too_tall(elem.ms.ext.tree_height) {\n        return false;\n    }\n";
    let text = patched(text, elem_cost, &format!("{too_tall}{elem_cost}    crate::room::compare(elem_cost);\n"));
    let text = patched(&text, insert, &format!("        crate::room::accept(map.len());\n{insert}"));
    let text = patched(&text, queue, &format!("{queue}    let mut fuel = crate::room::Fuel::full();\n"));
    let text = patched(&text, pop, &format!("        fuel.pop();\n{pop}"));
    let text = patched(&text, gain, &format!("{gain}                crate::room::gain(be.cost_1d(sp, dp), bw.cost_1d(sp, dp));\n"));
    let text = patched(&text, hit, &format!("        crate::room::remembered();\n{hit}"));
    patched(&text, store, &format!("        crate::room::store(policy_cache.len());\n{store}"))
}

/// Links the library of the port where an environment variable names one, and tells the program so.
fn link(variable: &str, told: &str) {
    println!("cargo:rerun-if-env-changed={variable}");
    println!("cargo:rustc-check-cfg=cfg({told})");
    let Some(library) = env::var_os(variable).map(PathBuf::from) else { return };
    let Ok(library) = library.canonicalize() else { stop(&format!("{variable}: there is no {}", library.display())) };
    println!("cargo:rustc-cfg={told}");
    println!("cargo:rerun-if-changed={}", library.display());
    println!("cargo:rustc-link-arg={}", library.display());
}

fn main() {
    let bench = PathBuf::from(env::var_os("CARGO_MANIFEST_DIR").unwrap());
    let out = PathBuf::from(env::var_os("OUT_DIR").unwrap());
    let source = sources(&bench).join("src");
    let compiler = source.join("policy/compiler.rs");
    let text = fs::read_to_string(&compiler).unwrap_or_else(|e| stop(&format!("{}: {e}", compiler.display())));
    let accessor = fs::read_to_string(bench.join("src/accessor.rs")).unwrap();

    let write = |name: &str, text: &str| fs::write(out.join(name), text).unwrap_or_else(|e| stop(&format!("{name}: {e}")));
    write("costed.rs", &format!("{text}\n{accessor}"));
    write("counted.rs", &format!("{}\n{accessor}", counted(&text)));
    let copied = out.join("types");
    fs::create_dir_all(&copied).unwrap_or_else(|e| stop(&format!("{}: {e}", copied.display())));
    for (file, change) in
        [("mod.rs", Some(types as fn(&str) -> String)), ("correctness.rs", Some(correctness)), ("malleability.rs", None), ("extra_props.rs", None)]
    {
        let at = source.join("miniscript/types").join(file);
        let text = fs::read_to_string(&at).unwrap_or_else(|e| stop(&format!("{}: {e}", at.display())));
        write(&format!("types/{file}"), &change.map_or_else(|| text.clone(), |change| change(&text)));
    }
    let module = |visibility: &str, name: &str, at: &Path| {
        format!("#[allow(warnings, clippy::all)]\n#[path = {:?}]\n{visibility} mod {name};\n", at.display().to_string())
    };
    let miniscript = |file: &str| source.join("miniscript").join(file);
    write(
        "miniscript.rs",
        &[
            module("pub", "types", &copied.join("mod.rs")),
            module("pub(crate)", "context", &miniscript("context.rs")),
            module("pub", "decode", &miniscript("decode.rs")),
            module("pub", "lex", &miniscript("lex.rs")),
            module("pub", "limits", &miniscript("limits.rs")),
        ]
        .concat(),
    );
    write(
        "policy.rs",
        &[
            module("pub", "compiler", &compiler),
            module("pub", "costed", &out.join("costed.rs")),
            module("pub", "counted", &out.join("counted.rs")),
        ]
        .concat(),
    );

    link("CLASPWILLOW_LIB", "port");
    println!("cargo:rerun-if-env-changed=MINISCRIPT_SRC");
    println!("cargo:rerun-if-changed=build.rs");
    println!("cargo:rerun-if-changed=src/accessor.rs");
    println!("cargo:rerun-if-changed={}", source.display());
}
