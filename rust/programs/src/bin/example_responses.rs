fn main() -> impl std::process::Termination {
    programs::example_responses()
}
