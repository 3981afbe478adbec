fn main() -> std::process::ExitCode {
    dtp_run::start()
}
