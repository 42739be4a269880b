\name{rescue}
\alias{rescue}
\alias{rescues}
\alias{breaking}
\alias{impact}
\title{Rescues, ruins and breaking cuts}
\description{\code{rescue} finds the least sum of cash that makes a bank pay all that it owes. \code{rescues} finds
this sum for each bank in default, and tells which other banks it saves too. \code{breaking} gives the least cut of
all cash, per mille, after which a bank no longer pays in full: 0 where it is in default as things are, and 1,001
where no cut breaks it. \code{impact} takes each bank's cash away, and tells what it and the others keep less.}
\usage{
rescue(network, bank, workers = 4, sweeps = 1)
rescues(network)
breaking(network)
impact(network)
}
\arguments{
  \item{network}{a network, or a case}
  \item{bank}{the name of a bank}
  \item{workers, sweeps}{as for \code{\link{clear}}}
}
\value{\code{rescue} gives the least sum that saves the bank (\code{added}), what it would lack with a unit less
(\code{short}), and the payments then. The others give data frames of the banks, and \code{saves} or \code{pairs} of
banks.}
\examples{
banks <- data.frame(name = c("A", "B", "C"), cash = c(7, 1, 0))
debts <- data.frame(debtor = c("A", "B"), creditor = c("B", "C"), claim = c(10, 9))
net <- bank_network(banks, debts)
if (nzchar(Sys.which("clearing")) || nzchar(Sys.getenv("CLEARING"))) {
  rescue(net, "A")$added
  rescues(net)$saves
  breaking(net)$banks
  impact(net)$pairs
}
}
