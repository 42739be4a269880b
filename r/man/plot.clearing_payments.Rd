\name{plot.clearing_payments}
\alias{plot.clearing_payments}
\alias{plot.clearing_breaking}
\title{Pictures of payments and of breaking cuts}
\description{Payments are drawn as a bar for each debtor: grey is paid, the colour is unpaid. Breaking cuts are
drawn as the number of banks that pay in full at each cut of all cash. The title says what the picture shows.}
\usage{
\method{plot}{clearing_payments}(x, ..., most = 20)
\method{plot}{clearing_breaking}(x, ...)
}
\arguments{
  \item{x}{what \code{\link{clear}} or another task with payments gave, or \code{\link{breaking}}}
  \item{...}{more for the plot}
  \item{most}{how many debtors are shown at most, those first that leave most unpaid}
}
\value{What was drawn, as a data frame, invisibly.}
\examples{
banks <- data.frame(name = c("A", "B", "C"), cash = c(7, 1, 0))
debts <- data.frame(debtor = c("A", "B"), creditor = c("B", "C"), claim = c(10, 9))
net <- bank_network(banks, debts)
if (nzchar(Sys.which("clearing")) || nzchar(Sys.getenv("CLEARING"))) {
  plot(clear(net))
  plot(breaking(net))
}
}
