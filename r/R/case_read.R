# How a case is read from its folder: its files, none of which is a link, and what is to be told of them.

# Whether a path is one below the folder, by its words alone.
is_inside <- function(path) {
  parts <- strsplit(path, "/", fixed = TRUE)[[1]]
  nzchar(path) && !endsWith(path, "/") && !any(parts %in% c("", ".", "..")) &&
    !grepl("[\\\\\001-\037]", path) && !grepl(":", parts[1], fixed = TRUE)
}

# Fails at a link in the place of a part of a folder.
refuse_link <- function(place, folder, path) {
  if (is_link(place)) fail(sprintf("%s: %s is a link, or stands behind one; a case has files alone", folder, path))
}

# A path of a folder, where there is a file; fails at links and at what is no file.
own_file <- function(folder, path) {
  here <- folder
  for (part in strsplit(path, "/", fixed = TRUE)[[1]]) {
    here <- file.path(here, part)
    refuse_link(here, folder, path)
  }
  if (!file.exists(here)) return(NULL)
  if (dir.exists(here)) fail(sprintf("%s: %s is no file", folder, path))
  here
}

# The copies of sheets that a folder has, by their names; fails at links and at what is no file.
sheets_in <- function(folder) {
  place <- file.path(folder, SHEETS)
  if (!dir.exists(place)) {
    own_file(folder, SHEETS)
    if (file.exists(place)) fail(sprintf("%s: %s is no folder", folder, SHEETS))
    return(character(0))
  }
  refuse_link(place, folder, SHEETS)
  names <- sort(list.files(place, all.files = TRUE, no.. = TRUE), method = "radix")
  paths <- vapply(names, function(name) or(own_file(folder, paste0(SHEETS, "/", name)), ""), "")
  other <- names[!utils::file_test("-f", paths)]
  if (length(other)) fail(sprintf("%s: %s/%s is no file", folder, SHEETS, other[1]))
  paths
}

# The SHA-256 of a file, or NULL where neither R nor the system can tell it.
hash_of <- function(file) {
  ours <- tryCatch(getExportedValue("tools", "sha256sum"), error = function(fault) NULL)
  if (!is.null(ours)) return(paste0("sha256:", unname(ours(file))))
  if (!nzchar(Sys.which("sha256sum"))) return(NULL)
  told <- system2("sha256sum", c("--", shQuote(file)), stdout = TRUE)
  paste0("sha256:", sub("^\\\\?([0-9a-f]{64}).*$", "\\1", told[1]))
}

# What a description says; nothing where there is none.
read_description <- function(file) {
  if (is.null(file)) return(setNames(list(), character(0)))
  document <- read_json(paste(read_lines(file), collapse = "\n"))
  if (!is.list(document) || is.null(names(document))) fail(sprintf("%s is no object of JSON", DESCRIPTION))
  check_described(document[["clearing"]])
  document
}

# The case in a folder, with what is to be told of its files in `notes`.
read_case <- function(folder) {
  if (!dir.exists(folder)) fail(sprintf("%s is no folder", folder), 3L)
  # The files are read anew where the case is written, by then perhaps from another working folder.
  folder <- normalizePath(folder)
  paths <- drop_null(lapply(CASE_FILES, function(name) own_file(folder, name)))
  for (what in c("banks", "debts")) {
    if (is.null(paths[[what]])) fail(sprintf("%s has no %s, and is no case", folder, CASE_FILES[[what]]))
  }
  described <- own_file(folder, DESCRIPTION)
  document <- read_description(described)
  sheets <- in_order_of(sheets_in(folder), document[["resources"]])
  labels <- if (is.null(paths$labels)) NULL else read_labels(paths$labels)
  notes <- if (is.null(described)) character(0) else notes_of(document, folder, paths)
  said <- if (identical(document[["clearing"]][["limits"]], "wide")) "wide" else NULL
  as_case(read_network(paths$banks, paths$debts, said), document, labels, paths, notes, sheets)
}

# The path of a resource, or no text where it has none.
path_of <- function(resource) {
  path <- if (is.list(resource)) resource[["path"]]
  if (is.character(path)) path else ""
}

# Sheets in the order in which a description has them, and behind these those that it has not.
in_order_of <- function(sheets, resources) {
  if (!length(sheets)) return(sheets)
  described <- vapply(resources, path_of, "")
  sheets[order(match(paste0(SHEETS, "/", names(sheets)), described, nomatch = length(described) + 1L))]
}

# The keys under `clearing` that are none of ours.
unknown_keys <- function(ours) {
  found <- sprintf("clearing.%s", setdiff(names(ours), OUR_KEYS))
  for (inner in names(INNER_KEYS)) {
    more <- setdiff(names(ours[[inner]]), INNER_KEYS[[inner]])
    found <- c(found, sprintf("clearing.%s.%s", rep(inner, length(more)), more))
  }
  found
}

# The labels of banks, whose columns are all texts.
read_labels <- function(file) {
  table <- tryCatch(
    utils::read.csv(file, colClasses = "character", na.strings = character(0), encoding = "UTF-8", check.names = FALSE),
    error = function(fault) fail(sprintf("%s: %s", file, conditionMessage(fault)))
  )
  if (!identical(names(table), LABEL_COLUMNS)) {
    fail(sprintf("%s: the first row is not %s", file, paste(LABEL_COLUMNS, collapse = ",")))
  }
  table
}

# What is to be told of a resource, which is a file below the folder.
note_of <- function(resource, folder) {
  path <- resource[["path"]]
  if (!is.character(path) || !is_inside(path)) {
    fail(sprintf("%s: a resource has a path that is not below the folder", folder))
  }
  file <- own_file(folder, path)
  if (is.null(file)) return(sprintf("%s is described, and is not there", path))
  hash <- resource[["hash"]]
  if (is.null(hash) || identical(or(hash_of(file), hash), hash)) return(character(0))
  sprintf("%s is not the file that was described", path)
}

# What is to be told of a folder with a description.
notes_of <- function(document, folder, paths) {
  resources <- document[["resources"]]
  if (!all(vapply(resources, is.list, NA))) fail(sprintf("%s: a resource is no object", folder))
  resources <- Filter(function(resource) !is.null(resource[["path"]]), resources)
  told <- unlist(lapply(resources, note_of, folder))
  described <- vapply(resources, path_of, "")
  left <- setdiff(basename(unlist(paths)), described)
  unknown <- substr(unknown_keys(document[["clearing"]]), 1, 80)
  c(told, sprintf("%s is not described", left), sprintf("the key %s is unknown", unknown))
}
