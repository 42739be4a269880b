\name{read_case}
\alias{read_case}
\alias{write_case}
\alias{bank_case}
\alias{amount}
\alias{print.bank_case}
\alias{summary.bank_case}
\title{Cases: a network with its unit, date and names}
\description{A case is a folder with the two files, perhaps \code{scenarios.toml} and \code{labels.csv}, and
\code{datapackage.json}, a description by the Data Package standard. \code{read_case} reads one, \code{write_case}
writes one whole or not at all. Links, and paths that lead out of the folder, are refused. Copies of sheets in
\code{sources} stay with the case: \code{write_case} writes those that \code{read_case} found.}
\usage{
bank_case(network, title = "", description = "", as_of = NULL, test = NULL,
          currency = NULL, unit = "1", labels = NULL, keep = NULL)
read_case(folder)
write_case(case, folder, replace = FALSE)
amount(case, units)
\method{print}{bank_case}(x, ...)
\method{summary}{bank_case}(object, ...)
}
\arguments{
  \item{network}{a network}
  \item{title, description}{what the case is called, and a text about it in Markdown}
  \item{as_of}{the date of the amounts, as \code{"YYYY-MM-DD"}}
  \item{test}{\code{"liquidity"} or \code{"solvency"}}
  \item{currency}{three letters}
  \item{unit}{how much of the currency one unit of account is: an exact decimal as a text, such as \code{"0.01"}}
  \item{labels}{a data frame with the columns bank, short, full, group and country}
  \item{keep}{what default keeps, per mille, where the case is about it}
  \item{folder}{the name of a folder}
  \item{case, x, object}{a case}
  \item{replace}{whether a case that is there is written over}
  \item{units}{whole units of account}
  \item{...}{not used}
}
\value{A case: a list with \code{network}, \code{labels}, \code{title}, \code{description}, \code{as_of},
\code{test}, \code{currency}, \code{unit}, \code{limits}, \code{keep} and \code{notes}, lines on what in the folder
is not as it was described, and on keys under \code{clearing} that are unknown. All tasks take a case in the place
of a network, and so does \code{summary}. \code{amount} gives texts, exact decimals in the currency; \code{as.numeric} makes numbers of them.}
\examples{
banks <- data.frame(name = c("A", "B", "C"), cash = c(7, 1, 0))
debts <- data.frame(debtor = c("A", "B"), creditor = c("B", "C"), claim = c(10, 9))
net <- bank_network(banks, debts)
case <- bank_case(net, title = "Three banks", as_of = "2026-06-30", currency = "EUR", unit = "0.01")
folder <- file.path(tempdir(), "three-banks")
write_case(case, folder)
read_case(folder)
amount(case, c(7, 1234))
}
