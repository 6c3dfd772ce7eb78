//! What build.rs links, in each situation: a library that the environment names, one of the repository, an installed one, one
//! that is built, and none. build.rs is compiled and run as cargo runs it, in folders made up for it.

mod situation;

use situation::{Situation, CROSS, HERE};

#[test]
fn the_repositorys_library_is_taken_before_an_installed_one() {
    let situation = Situation::new("before");
    situation.in_repository("target/staticlib/libcapi.a");
    situation.install("1.0.0", &["libtarnoklej.a"]);
    let said = situation.run(HERE, &[]).expect("a library");
    assert_eq!(said.linked, "REPOSITORY/target/staticlib/libcapi.a (static, built in the repository)");
    assert_eq!((said.search.as_str(), said.library.as_str()), ("REPOSITORY/target/staticlib", "static=capi"));
    assert_eq!(said.warning, format!("linked: {}", said.linked));
}

#[test]
fn an_installed_library_is_taken_where_none_was_built() {
    let situation = Situation::new("installed");
    situation.install("1.4.2", &["libtarnoklej.a", "libtarnoklej.so"]);
    let said = situation.run(HERE, &[]).expect("a library");
    assert_eq!(said.linked, "PREFIX/lib/libtarnoklej.a (static, installed, found by pkg-config)");
    assert_eq!((said.search.as_str(), said.library.as_str()), ("PREFIX/lib", "static=tarnoklej"));
    let shared = situation.run(HERE, &[("TARNOKLEJ_LINK", "shared")]).expect("a library");
    assert_eq!(shared.linked, "PREFIX/lib/libtarnoklej.so (shared, installed, found by pkg-config)");
    assert_eq!(shared.library, "dylib=tarnoklej");
}

#[test]
fn a_shared_library_alone_is_taken() {
    let situation = Situation::new("shared");
    situation.install("1.0.0", &["libtarnoklej.so"]);
    assert_eq!(situation.run(HERE, &[]).expect("a library").library, "dylib=tarnoklej");
    let error = situation.run(HERE, &[("TARNOKLEJ_LINK", "static"), ("TARNOKLEJ_LIBRARY", "installed")]);
    assert!(error.expect_err("no archive").contains("PREFIX/lib has none of libtarnoklej.a"));
}

#[test]
fn the_environment_decides() {
    let situation = Situation::new("decides");
    situation.in_repository("target/staticlib/libcapi.a");
    situation.install("1.0.0", &["libtarnoklej.a"]);
    situation.file("elsewhere/libtarnoklej.a");
    situation.file("elsewhere/libtarnoklej.so");
    let linked = |value: &str| situation.run(HERE, &[("TARNOKLEJ_LIBRARY", value)]).expect("a library").linked;
    assert!(linked("installed").starts_with("PREFIX/lib/libtarnoklej.a (static, installed"));
    assert!(linked("repository").starts_with("REPOSITORY/target/staticlib/libcapi.a (static, built"));
    assert_eq!(linked(""), linked("repository"));
    let folder = situation.path("elsewhere");
    assert_eq!(linked(&folder), "FOLDER/elsewhere/libtarnoklej.a (static, named by TARNOKLEJ_LIBRARY)");
    let shared = format!("{folder}/libtarnoklej.so");
    assert_eq!(linked(&shared), "FOLDER/elsewhere/libtarnoklej.so (shared, named by TARNOKLEJ_LIBRARY)");
}

#[test]
fn what_the_environment_names_must_be_there() {
    let situation = Situation::new("must");
    situation.in_repository("target/staticlib/libcapi.a");
    situation.file("elsewhere/readme.txt");
    let error = |value: &str| situation.run(HERE, &[("TARNOKLEJ_LIBRARY", value)]).expect_err("no library");
    let folder = situation.path("elsewhere");
    assert!(error(&format!("{folder}/libtarnoklej.a")).contains("elsewhere/libtarnoklej.a, which is not there."));
    assert!(error(&format!("{folder}/readme.txt")).contains("which is not named as a library is."));
    assert!(error(&folder).contains("FOLDER/elsewhere has none of libtarnoklej.a, libcapi.a"));
    assert!(error("target/staticlib").contains("which is no absolute path."));
    assert!(error("installed").contains("tarnoklej"));
    let link = situation.run(HERE, &[("TARNOKLEJ_LINK", "both")]).expect_err("no such way");
    assert!(link.contains("TARNOKLEJ_LINK is both, and not static or shared."));
}

#[test]
fn a_library_of_another_version_is_not_taken() {
    let situation = Situation::new("version");
    for version in ["0.9.9", "2.0.0", "2.1.0"] {
        situation.install(version, &["libtarnoklej.a"]);
        let error = situation.run(HERE, &[("TARNOKLEJ_LIBRARY", "installed")]).expect_err("another version");
        assert!(error.contains("pkg-config: ") && error.contains(version), "{error}");
    }
}

#[test]
fn a_library_is_built_where_there_is_none() {
    let situation = Situation::new("built");
    situation.builder("bindings/staticlib", "mkdir -p target/staticlib && : >target/staticlib/libcapi.a");
    let said = situation.run(HERE, &[]).expect("a library");
    assert_eq!(said.linked, "REPOSITORY/target/staticlib/libcapi.a (static, built in the repository for this build)");
    let again = situation.run(HERE, &[]).expect("a library");
    assert_eq!(again.linked, "REPOSITORY/target/staticlib/libcapi.a (static, built in the repository)");
}

#[test]
fn where_nothing_helps_every_reason_is_said() {
    let situation = Situation::new("nothing");
    situation.builder("bindings/staticlib", "echo 'rt: not found' >&2; exit 1");
    let error = situation.run(HERE, &[]).expect_err("no library");
    for reason in [
        "tarnoklej: there is no library to link.",
        "TARNOKLEJ_LIBRARY is not set; it may name the library's file or folder.",
        "REPOSITORY/target/staticlib has none of libtarnoklej.a",
        "pkg-config: ",
        "bindings/staticlib did not build it: rt: not found",
    ] {
        assert!(error.contains(reason), "{reason} is not in\n{error}");
    }
    let outside = Situation::new("outside");
    assert!(outside.run(HERE, &[]).expect_err("no library").contains("This crate does not stand in the repository"));
    let no_pkg_config = outside.run(HERE, &[("PKG_CONFIG", "/no/such/program")]).expect_err("no library");
    assert!(no_pkg_config.contains("/no/such/program cannot be run"), "{no_pkg_config}");
}

#[test]
fn another_machine_gets_its_own_library() {
    let situation = Situation::new("machine");
    situation.in_repository("target/staticlib/libcapi.a");
    situation.install("1.0.0", &["libtarnoklej.a"]);
    situation.builder("targets/build", "mkdir -p target/targets/$1 && : >target/targets/$1/libtarnoklej.a");
    let said = situation.run(CROSS, &[]).expect("a library");
    let file = "REPOSITORY/target/targets/aarch64-linux-gnu/libtarnoklej.a";
    assert_eq!(said.linked, format!("{file} (static, built in the repository for this build)"));
    let installed = situation.run(CROSS, &[("TARNOKLEJ_LIBRARY", "installed")]).expect_err("the host's library");
    assert!(installed.contains("pkg-config is not asked for another machine"));
    let allowed = [("TARNOKLEJ_LIBRARY", "installed"), ("PKG_CONFIG_ALLOW_CROSS", "1")];
    assert!(situation.run(CROSS, &allowed).expect("a library").linked.starts_with("PREFIX/lib/libtarnoklej.a"));
    let other = ["powerpc64-unknown-linux-gnu", "powerpc64", "linux"];
    let none = situation.run(other, &[]).expect_err("no library");
    assert!(none.contains("The repository builds no library for powerpc64-unknown-linux-gnu."), "{none}");
}

#[test]
fn this_build_says_what_it_linked() {
    let file = tarnoklej::LIBRARY.split(" (").next().expect("a file");
    assert!(std::path::Path::new(file).is_file(), "{}", tarnoklej::LIBRARY);
}
