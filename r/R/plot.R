# Pictures. What is unpaid has the one colour, what is paid is grey.

UNPAID <- "#b3401f"
PAID <- "#b9bfc6"

# A title over the middle of the whole picture, as large as there is room for.
heading <- function(told) {
  mtext(told, line = 1, at = grconvertX(0.5, "nfc", "user"), font = 2, cex = par("cex") * heading_size(told))
}

# How large a title is: no larger than others, and as wide as the picture at most.
heading_size <- function(told) min(1.2, 0.96 / strwidth(told, "figure", cex = 1, font = 2))

# Payments: a bar for each debtor, those first that leave most unpaid.
plot.clearing_payments <- function(x, ..., most = 20) {
  if (!is.data.frame(x$payments) || !nrow(x$payments)) {
    plot(0, type = "n", axes = FALSE, xlab = "", ylab = "")
    title("No debts")
    return(invisible(NULL))
  }
  sums <- aggregate(x$payments[c("claim", "paid")], list(bank = x$payments$debtor), sum)
  sums$unpaid <- sums$claim - sums$paid
  sums <- sums[order(-sums$unpaid, -sums$claim), ]
  shown <- head(sums, most)
  heights <- t(as.matrix(shown[rev(seq_len(nrow(shown))), c("paid", "unpaid")]))
  colnames(heights) <- rev(shown$bank)
  before <- par(mar = c(4, 10, 3, 1))
  on.exit(par(before))
  short <- sum(sums$unpaid > 0)
  barplot(heights, horiz = TRUE, las = 1, border = NA, col = c(PAID, UNPAID), cex.names = 0.8,
          xlab = "units of account", ...)
  all_of <- function(column) format(sum(sums[[column]]), big.mark = ",")
  heading(sprintf("%d of %d debtors leave %s of %s units unpaid", short, nrow(sums), all_of("unpaid"), all_of("claim")))
  legend("bottomright", c("paid", "unpaid"), fill = c(PAID, UNPAID), border = NA, bty = "n")
  invisible(sums)
}

# Breaking cuts: how many banks pay in full at each cut of all cash.
plot.clearing_breaking <- function(x, ...) {
  cuts <- x$banks$cut
  at <- 0:1000
  standing <- vapply(at, function(cut) sum(cuts > cut), 1L)
  plot(at, standing, type = "s", lwd = 2, las = 1, ylim = c(0, length(cuts)), xlab = "cut of all cash, in thousandths",
       ylab = "banks that pay in full", ...)
  next_cut <- suppressWarnings(min(cuts[cuts > 0 & cuts <= 1000]))
  told <- sprintf("%d of %d banks are in default as things are", sum(cuts == 0), length(cuts))
  if (is.finite(next_cut)) told <- paste0(told, sprintf("; a cut of %d fells the next", as.integer(next_cut)))
  heading(told)
  if (is.finite(next_cut)) lines(c(next_cut, next_cut), c(0, length(cuts)), lty = 2, col = UNPAID)
  invisible(data.frame(cut = at, standing = standing))
}
