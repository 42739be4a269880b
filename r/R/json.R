# JSON, as far as a case needs it: objects are lists with names, arrays lists without, and `null` is NULL. What reads a
# part takes all tokens and the place where the part begins, and gives its value with the place behind it, as `at`.

# Texts, numbers, words and signs; what is none of them is a token of one character, and refused where it stands.
JSON_TOKEN <- "\"(?:[^\"\\\\\\x00-\\x1f]|\\\\.)*\"|[-+.0-9eE]+|true|false|null|[][{}:,]|[^ \\t\\r\\n]"
JSON_NUMBER <- "^-?(0|[1-9][0-9]*)([.][0-9]+)?([eE][-+]?[0-9]+)?$"

# An escape in a text: two that make one character beyond the first 65,536, one of four digits, or one of a letter.
JSON_ESCAPE <- "\\\\u[dD][89abAB][0-9a-fA-F]{2}\\\\u[dD][c-fC-F][0-9a-fA-F]{2}|\\\\u[0-9a-fA-F]{4}|\\\\."
JSON_LETTERS <- c("\\\"" = "\"", "\\\\" = "\\", "\\/" = "/", "\\b" = "\b", "\\f" = "\f", "\\n" = "\n",
                  "\\r" = "\r", "\\t" = "\t")

MAX_DEPTH <- 64L

# The value of a text of JSON; fails with what is wrong in it.
read_json <- function(text) {
  tokens <- regmatches(text, gregexpr(JSON_TOKEN, text, perl = TRUE))[[1]]
  read <- json_value(tokens, 1L, 1L)
  if (read$at <= length(tokens)) fail("not JSON: something stands behind its end")
  read$value
}

# The token at a place; fails at the end of the text.
token_at <- function(tokens, at) if (at > length(tokens)) fail("not JSON: it ends too early") else tokens[at]

# The place behind a token that must stand here.
behind <- function(tokens, at, wanted) {
  found <- token_at(tokens, at)
  if (found != wanted) fail(sprintf("not JSON: %s where %s was expected", shQuote(found), wanted))
  at + 1L
}

# Any value, which stands so many brackets deep.
json_value <- function(tokens, at, depth) {
  if (depth > MAX_DEPTH) fail(sprintf("JSON that nests deeper than %d", MAX_DEPTH))
  token <- token_at(tokens, at)
  if (token == "{") return(json_object(tokens, at + 1L, depth))
  if (token == "[") return(json_parts(tokens, at + 1L, "]", function(at) json_value(tokens, at, depth + 1L)))
  list(value = json_single(token), at = at + 1L)
}

# An object behind its first bracket.
json_object <- function(tokens, at, depth) {
  member <- function(at) {
    key <- json_text(token_at(tokens, at))
    read <- json_value(tokens, behind(tokens, at + 1L, ":"), depth + 1L)
    list(value = list(key = key, value = read$value), at = read$at)
  }
  read <- json_parts(tokens, at, "}", member)
  keys <- vapply(read$value, `[[`, "", "key")
  twice <- keys[duplicated(keys)]
  if (length(twice)) fail(sprintf("the key %s stands twice", shQuote(twice[1])))
  list(value = setNames(lapply(read$value, `[[`, "value"), keys), at = read$at)
}

# The parts of an array or an object behind its first bracket, with commas between them, as far as the last bracket.
json_parts <- function(tokens, at, end, read_part) {
  made <- list()
  if (token_at(tokens, at) == end) return(list(value = made, at = at + 1L))
  repeat {
    read <- read_part(at)
    made <- c(made, list(read$value))
    if (token_at(tokens, read$at) == end) return(list(value = made, at = read$at + 1L))
    at <- behind(tokens, read$at, ",")
  }
}

# The value of a token that is a word, a number or a text.
json_single <- function(token) {
  if (token == "null") return(NULL)
  if (token %in% c("true", "false")) return(token == "true")
  if (grepl(JSON_NUMBER, token)) return(as.numeric(token))
  if (startsWith(token, "\"")) return(json_text(token))
  fail(sprintf("not JSON: %s", shQuote(token)))
}

# A text out of its quotes. Escapes are found from left to right, so that one that stands for a backslash begins no
# other.
json_text <- function(token) {
  whole <- nchar(token) > 1 && startsWith(token, "\"")
  if (!whole) fail(sprintf("not JSON: %s where a text was expected", shQuote(token)))
  inner <- substring(token, 2, nchar(token) - 1)
  found <- gregexpr(JSON_ESCAPE, inner, perl = TRUE)
  regmatches(inner, found) <- list(vapply(regmatches(inner, found)[[1]], json_escape, "", USE.NAMES = FALSE))
  inner
}

# The character that an escape stands for; half of a pair, and the character 0, are none.
json_escape <- function(escape) {
  if (escape %in% names(JSON_LETTERS)) return(JSON_LETTERS[[escape]])
  codes <- strtoi(regmatches(escape, gregexpr("[0-9a-fA-F]{4}", escape))[[1]], 16L)
  if (length(codes) == 2) return(intToUtf8(65536 + (codes[1] - 55296) * 1024 + codes[2] - 56320))
  if (length(codes) == 1 && codes > 0 && (codes < 55296 || codes > 57343)) return(intToUtf8(codes))
  fail(sprintf("not JSON: the escape %s", shQuote(escape)))
}

# Whole numbers without an exponent, others with the fewest digits that give them back.
json_number <- function(value) {
  if (value == floor(value)) return(format(value, scientific = FALSE, digits = 16))
  texts <- vapply(15:17, function(digits) format(value, digits = digits), "")
  texts[c(which(as.numeric(texts) == value), 3L)[1]]
}

# A value as lines of JSON, two spaces a level.
write_json <- function(value, indent = "") {
  inner <- paste0(indent, "  ")
  if (is.null(value)) return("null")
  if (!is.list(value) && length(value) == 1) {
    return(if (is.logical(value)) tolower(value) else if (is.numeric(value)) json_number(value) else quoted(value))
  }
  if (!is.list(value)) value <- unname(as.list(value))
  named <- !is.null(names(value))
  if (!length(value)) return(if (named) "{}" else "[]")
  made <- vapply(value, write_json, "", indent = inner)
  if (named) made <- paste0(vapply(names(value), quoted, ""), ": ", made)
  brackets <- if (named) c("{", "}") else c("[", "]")
  paste0(brackets[1], "\n", paste0(inner, made, collapse = ",\n"), "\n", indent, brackets[2])
}
