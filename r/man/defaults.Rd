\name{defaults}
\alias{defaults}
\alias{bounds}
\alias{costs}
\alias{cost_bounds}
\title{Who defaults}
\description{How each bank stands: what it has, pays, owes and keeps. \code{bounds} gives the least and the greatest
payments, and marks banks in gridlock. \code{costs} clears where default costs a part of the estate (Rogers and
Veraart 2013).}
\usage{
defaults(network, workers = 4, sweeps = 1)
bounds(network, workers = 4, sweeps = 1)
costs(network, keep)
cost_bounds(network, keep)
}
\arguments{
  \item{network}{a network, or a case}
  \item{workers, sweeps}{as for \code{\link{clear}}}
  \item{keep}{what a bank in default keeps of its estate, per mille, from 0 to 1,000}
}
\value{A list of data frames. \code{defaults} and \code{costs} give the \code{standings} of the banks and their
\code{totals}, \code{bounds} and \code{cost_bounds} what each debt is paid at both ends and how the banks stand. A
state is \code{sound}, or one of two labels: \code{fundamental} where a bank could not pay even if all its debtors
paid in full, else \code{contagion}. A label names no cause.}
\examples{
banks <- data.frame(name = c("A", "B", "C"), cash = c(7, 1, 0))
debts <- data.frame(debtor = c("A", "B"), creditor = c("B", "C"), claim = c(10, 9))
net <- bank_network(banks, debts)
if (nzchar(Sys.which("clearing")) || nzchar(Sys.getenv("CLEARING"))) {
  defaults(net)$standings
  bounds(net)$banks
  costs(net, 500)$totals
}
}
