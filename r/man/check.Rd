\name{check}
\alias{check}
\alias{compress}
\alias{convert}
\alias{generate}
\title{Other tasks}
\description{\code{check} gives the counts of a network and both tables as the program reads them. \code{compress}
cancels cycles of debts of one class. \code{convert} gives the banks with what they owe outside. \code{generate}
clears a network made from a number, and gives its sums.}
\usage{
check(network)
compress(network)
convert(network)
generate(seed, size, tries, workers = 4, sweeps = 1)
}
\arguments{
  \item{network}{a network, or a case}
  \item{seed}{a whole number; one above \eqn{2^{53}}{2^53} as a text}
  \item{size}{how many banks are made, from 1 to 1,000}
  \item{tries}{how many debts are tried, from 0 to 20,000}
  \item{workers, sweeps}{as for \code{\link{clear}}}
}
\value{A list of data frames. \code{compress} gives the debts that are left, ranks that rise along each of them, and
how much was \code{cancelled}.}
\examples{
banks <- data.frame(name = c("A", "B", "C"), cash = c(7, 1, 0))
debts <- data.frame(debtor = c("A", "B"), creditor = c("B", "C"), claim = c(10, 9))
net <- bank_network(banks, debts)
if (nzchar(Sys.which("clearing")) || nzchar(Sys.getenv("CLEARING"))) {
  check(net)$totals
  compress(net)$cancelled
  generate(1, 10, 30)$totals
}
}
