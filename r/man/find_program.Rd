\name{find_program}
\alias{find_program}
\title{Where the program is}
\description{The program that the environment variable \code{CLEARING} names, else \command{clearing} on the path.
Where there is none it is an error that says what to do.}
\usage{
find_program()
}
\value{The name of the program.}
\examples{
if (nzchar(Sys.which("clearing")) || nzchar(Sys.getenv("CLEARING"))) {
  find_program()
}
}
