\name{clearing-package}
\alias{clearing-package}
\docType{package}
\title{Who pays what when banks owe each other more than they have}
\description{Calls the program \command{clearing}. Its computation is proved; that it reads files and writes its
output rightly is tested. A network is made of data frames by \code{\link{bank_network}}, or read by
\code{\link{read_case}}. Each task of the program is a function that gives data frames: \code{\link{clear}},
\code{\link{defaults}}, \code{\link{stress}} and others.}
\details{All amounts are whole units of account. R has whole numbers exactly up to \eqn{2^{53}}{2^53}, and what is
greater is an error. The program is the one that the environment variable \code{CLEARING} names, else
\command{clearing} on the path. A fault of it is a condition of the class \code{clearing_error}, with the
program's message and its \code{status}.}
\references{
Csóka, P., and Herings, P. J.-J. (2018). Decentralized clearing in financial networks. \emph{Management Science}
64(10), 4681--4699.

Eisenberg, L., and Noe, T. H. (2001). Systemic risk in financial systems. \emph{Management Science} 47(2), 236--249.
}
\keyword{package}
