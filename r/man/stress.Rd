\name{stress}
\alias{stress}
\alias{outcomes}
\alias{losses}
\title{Scenarios}
\description{What each scenario leaves, or its sums alone. At most 100 scenarios at once.}
\usage{
stress(network, scenarios = NULL, workers = 4, sweeps = 1)
outcomes(network, scenarios = NULL)
losses(name, cut = 0, ...)
}
\arguments{
  \item{network}{a network, or a case}
  \item{scenarios}{a list of \code{losses}, or the name of a scenarios file; without it that of the case}
  \item{workers, sweeps}{as for \code{\link{clear}}}
  \item{name}{what the scenario is called}
  \item{cut}{how much of all cash is lost, per mille, from 0 to 1,000}
  \item{...}{what single banks lose after the cut, in units, by their names; or one named vector}
}
\value{\code{stress} gives \code{payments}, \code{standings} and \code{totals}, with the number and the name of the
scenario in front. \code{outcomes} gives a line of sums for each scenario, and how often each bank defaults.
\code{losses} gives a scenario.}
\examples{
banks <- data.frame(name = c("A", "B", "C"), cash = c(7, 1, 0))
debts <- data.frame(debtor = c("A", "B"), creditor = c("B", "C"), claim = c(10, 9))
net <- bank_network(banks, debts)
bad <- list(losses("A has nothing", A = 7), losses("half", cut = 500))
if (nzchar(Sys.which("clearing")) || nzchar(Sys.getenv("CLEARING"))) {
  stress(net, bad)$totals
  outcomes(net, bad)$banks
}
}
