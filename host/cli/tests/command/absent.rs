//! The command where the archive was not there when it was built: it says so, and what needs no
//! call is done all the same.

#[cfg(not(archive))]
#[test]
fn it_says_what_is_missing() {
    let folder = crate::run::Folder::new("absent");
    for arguments in [&["read", "a.nex"][..], &["check", "."], &["write", "-"]] {
        let done = folder.run(arguments);
        let said = format!("nexus: {}\n", nexus::archive::NOT_LINKED);
        assert_eq!((done.status, done.out.as_str(), done.err), (2, "", said));
    }
    for arguments in [&["--help"][..], &["read", "--help"], &["explain", "22"]] {
        let done = folder.run(arguments);
        assert_eq!((done.status, done.err.as_str()), (0, ""));
    }
}
