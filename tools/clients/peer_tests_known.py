"""The tests of others that fail at ftpd, and why: each line is a pattern of names, which matches a name as a whole."""

PROFTPD = {
    # proftpd's own
    r"FEAT: feat_ok": "it counts proftpd's features",
    r"HELP: help_ok": "it counts proftpd's verbs",
    r"CWD: cwd_tilde_.*": "`~` is a name as any other one, and not the home directory",
    r"MLSD: mlsd_(?!fails).*": "it wants proftpd's own facts, and entries of the types cdir and pdir",
    r"LIST: list_opt_(C|R.*)|NLST: nlst_ok_glob_dir_with_recursion_bug4084": "the options of ls are taken and not followed",
    r"(LIST: list|NLST: nlst)_nonascii_chars_bug3032": "the option -B, by which bytes are shown in octal digits, isn't followed",
    r"RNTO: rnto_fails_allow_overwrite": "RNTO replaces a file; the test has AllowOverwrite off",
    # how a listing looks, which RFC 959 leaves open
    r"LIST: list_(ok_file|file_rel_paths_bug4259|file_after_upload|slashstar_bug3529)": "a file in LIST has its name, and not the path that was sent",
    r"LIST: list_glob_legit_dir_name.*": "a listing has neither `.` nor `..`",
    r"LIST: list_symlink_rel_with_double_slash_bug3719": "LIST shows what a link leads to, without `->` and a path",
    r"LIST: list_symlink_rel_path_(subdir_)?(cwd_)?chrooted_bug4322": "at proftpd 1.3.8 it fails in the same way",
    r"(LIST: list|NLST: nlst)_dash_filename_bug3476": "what begins with `-` is an option, and no name",
    r"NLST: nlst_(trailing_slashes_bug2457|parent_dir_bug4011)": "NLST repeats the slashes that were sent",
    r"NLST: nlst_opt_1_with_chroot": "NLST of another directory has its path before the names, so that RETR takes them",
    r"NLST: nlst_fails_enoent_glob": "a pattern without a match is an empty listing",
    # paths and links
    r"\w+: \w+_abs_symlink.*": "an absolute link leads out of the folder",
    r"APPE: appe_fails_rel_symlink_new.*": "a file is made where a link leads, as open(2) does",
    # the order of commands and replies
    r"(EPRT|EPSV|PASV|PORT|RNFR): \w+_during_xfer_bug\d+": "other lines than ABOR and STAT wait for the end of a transfer",
    r"ABOR: (abor_only|data_eof)_.*": "all was sent before the client ended it: 226 in the place of 426; proftpd's replies vary, too",
    r"PORT: port_eaddrnotavail": "150 comes before the data connection is opened, and then 425 (RFC 959, section 5.4)",
    r"RETR: retr_2nd_transfer_terminates_1st_transfer_bug4010": "LIST of no file has 450 at once, and there after 150",
    r"RNFR: rnfr_list_bad_cmd_sequence_bug3829": "a command between RNFR and RNTO is answered, and RNTO then has 503",
    r"TYPE: type_(ascii|binary)_ok": "TYPE needs a login",
    # what a command takes
    r"(EPRT|EPSV): \w+_ipv6_ok": "522 for the network protocol that the connection doesn't have (RFC 2428, section 2)",
    r"RETR: retr_ok_ascii_file_bug42[37]7": "in TYPE A each line feed of a file gets a CR, also after a CR",
    r"STAT: stat_(file|dir|dir_with_files_bug3990|enoent)": "STAT takes no path",
    r"STOU: stou_(ok_raw_active|ok_raw_passive|ok_file|file_umask.*)": "STOU takes no name (RFC 959, section 5.3.1)",
    # what the runner doesn't give the server
    r"MKD: mkd_embedded_lf_bug4167": "it compares texts over a socket of its own",
    r"NLST: nlst_ok_file": "it wants the path on the host, and not that in the folder",
    r"PASS: pass_(nonascii|spaces)_ok": "its account has another password",
}

TWISTED = {
    r"\S+\.test_FEAT": "it wants PASV in FEAT, which no RFC does",
    r"\S+\.test_NoParamsForPASS": "PASS without a parameter is an empty password, and has 530; there 500",
    r"\S+\.test_NotLoggedInReply": "a line without its parameter has 501 before the login, too, and there 530",
    r"\S+\.test_(NoParamsForUSER|BadCommandArgs|OPTS)": "501 as in RFC 959, section 4.2.1, and there 500, 504 and 502",
    r"\S+\.test_RETRBeforePORT": "425 as in RFC 959, section 5.4, and there 503",
    r"\S+\.test_UnknownCommand": "500 as in RFC 959, section 4.2.1, and there 502",
    r"\S+\.test_(STORBeforePORT|RNFRwithoutRNTO)": "anonymous users only read: 550 comes first",
    r"\S+\.test_RNFRandRNTO": "there each user has another folder",
    r"\S+\.test_NLSTNonexistent": "NLST of no file has 450, and there an empty listing",
    r"\S+\.test_PORTCannotConnect": "the server connects after the transfer command, and there before it answers PORT",
}

KNOWN = {"proftpd": PROFTPD, "twisted": TWISTED, "cpython": {}}
