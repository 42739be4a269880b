\name{clear}
\alias{clear}
\alias{central}
\alias{replay}
\alias{print.clearing_result}
\alias{summary.clearing_result}
\title{Payments and journals}
\description{The least payments in which each bank pays what its rule gives from its cash and receipts, and a
journal of the raises by which a run came to them. \code{central} computes the same payments on one thread.
\code{replay} judges a journal.}
\usage{
clear(network, show = c("payments", "journal", "both"), workers = 4, sweeps = 1)
central(network)
replay(network, journal)
\method{print}{clearing_result}(x, ...)
\method{summary}{clearing_result}(object, ...)
}
\arguments{
  \item{network}{a network, or a case}
  \item{show}{what is wanted}
  \item{workers, sweeps}{the number of threads, from 1 to 64, and of sweeps in a round, from 1 to 1,000; the
    payments do not depend on them}
  \item{journal}{what \code{clear} gave with a journal, a data frame of its form, or the name of a journal file}
  \item{x, object}{what a task gave}
  \item{...}{not used}
}
\value{A list of data frames: \code{payments} with the columns debtor, creditor, class, claim and paid;
\code{journal} with the columns stamp, debtor, creditor, class and to, and \code{rounds}. \code{replay} gives the
\code{verdict}, and the payments where it is \code{"lawful"}, else \code{where} it fails.}
\examples{
banks <- data.frame(name = c("A", "B", "C"), cash = c(7, 1, 0))
debts <- data.frame(debtor = c("A", "B"), creditor = c("B", "C"), claim = c(10, 9))
net <- bank_network(banks, debts)
if (nzchar(Sys.which("clearing")) || nzchar(Sys.getenv("CLEARING"))) {
  paid <- clear(net, "both")
  paid
  replay(net, paid)$verdict
}
}
