\name{bank_network}
\alias{bank_network}
\alias{read_network}
\alias{write_network}
\alias{print.bank_network}
\alias{summary.bank_network}
\alias{print.summary.bank_network}
\title{Networks of banks and debts}
\description{Makes a network of two data frames, or of the two files of the program, and writes the files. Amounts
are whole units, from 0 on. What the columns mean, the limits and the kinds of fault are those of the program.}
\usage{
bank_network(banks, debts, rule = "webster", class = 1, limits = NULL)
read_network(banks, debts, limits = NULL)
write_network(network, banks, debts)
\method{summary}{bank_network}(object, ...)
\method{print}{bank_network}(x, ...)
}
\arguments{
  \item{banks}{a data frame with the columns \code{name} and \code{cash}, and perhaps \code{rule} and
    \code{outside}; of \code{read_network} and \code{write_network} the name of a banks file}
  \item{debts}{a data frame with the columns \code{debtor}, \code{creditor} and \code{claim}, and perhaps
    \code{class}; or the name of a debts file}
  \item{rule}{the rule of all banks, where there is no such column: \code{order}, \code{equal}, \code{losses},
    \code{jefferson}, \code{webster} or \code{adams}}
  \item{class}{the class of all debts, where there is no such column, from 1 to 9}
  \item{limits}{\code{"standard"} (1,000 banks, 20,000 debts, 10,000,000 units owed) or \code{"wide"} (10,000 banks,
    1,000,000 debts, 25,000,000 units owed): the limits by which the network is read. By default they are the
    standard ones, or the wide ones for a network that is too large for these; a message says so}
  \item{network, object, x}{a network; of \code{write_network} also a case, whose network it writes}
  \item{...}{not used}
}
\value{A network; \code{write_network} gives its network invisibly. \code{summary} gives the counts that the program
reads: banks, debts, all claims and all cash.}
\examples{
banks <- data.frame(name = c("A", "B", "C"), cash = c(7, 1, 0))
debts <- data.frame(debtor = c("A", "B"), creditor = c("B", "C"), claim = c(10, 9))
net <- bank_network(banks, debts)
net
if (nzchar(Sys.which("clearing")) || nzchar(Sys.getenv("CLEARING"))) {
  summary(net)
}
}
