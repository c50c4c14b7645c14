// Stand-in for the project's own error.rs: carriers of errors, never made here.

#[derive(Debug)]
#[allow(dead_code)]
pub enum ReasonableError {
    ManagerError(String),
    Io(std::io::Error),
    Turtle(rio_turtle::TurtleError),
}

pub type Result<T> = std::result::Result<T, ReasonableError>;

impl From<std::io::Error> for ReasonableError {
    fn from(e: std::io::Error) -> Self {
        ReasonableError::Io(e)
    }
}

impl From<rio_turtle::TurtleError> for ReasonableError {
    fn from(e: rio_turtle::TurtleError) -> Self {
        ReasonableError::Turtle(e)
    }
}
