# The description of a case by the Data Package standard: its keys, its resources, and what it says of the case.

# The keys of a description that are ours, below `clearing`; others are told.
OUR_KEYS <- c("asOf", "test", "currency", "unit", "limits", "keep", "import", "from")
INNER_KEYS <- list(
  import = c("command", "read", "leftOut", "summed", "rounded", "converted"),
  from = c("title", "hashes", "changes")
)

# Whether a value is one text of a pattern.
is_text <- function(value, pattern) is.character(value) && length(value) == 1 && grepl(pattern, value)

# Whether a value is a day of the calendar.
is_date <- function(value) {
  is_text(value, "^[0-9]{4}-[0-9]{2}-[0-9]{2}$") && !is.na(as.Date(value, optional = TRUE))
}

# Whether a value is an exact decimal above 0, as a text.
is_unit <- function(value) is_text(value, "^[0-9]{1,40}([.][0-9]{1,40})?$") && grepl("[1-9]", value)

# Whether a value is a whole number of thousandths.
is_keep <- function(value) {
  is.numeric(value) && length(value) == 1 && isTRUE(value >= 0 && value <= 1000 && value == floor(value))
}

# What stands under our key is of its form; fails with the key.
check_described <- function(ours) {
  if (!is.null(ours) && !is.list(ours)) fail("clearing: no object of JSON")
  must <- function(key, is_well, what) {
    value <- ours[[key]]
    if (!is.null(value) && !isTRUE(is_well(value))) fail(sprintf("clearing.%s: %s", key, what))
  }
  must("asOf", is_date, "no date YYYY-MM-DD")
  must("test", function(value) is_text(value, "^(liquidity|solvency)$"), "neither liquidity nor solvency")
  must("currency", function(value) is_text(value, "^[A-Z]{3}$"), "not three capital letters")
  must("unit", is_unit, "not an exact decimal above 0, as a text")
  must("limits", function(value) is_text(value, "^(standard|wide)$"), "neither standard nor wide")
  must("keep", is_keep, "not from 0 to 1000")
}

# The columns of each file as the standard describes them.
fields_of <- function(what, network) {
  if (what == "labels") return(lapply(LABEL_COLUMNS, function(name) list(name = name, type = "string")))
  kinds <- TABLES[[what]]
  columns <- if (what == "banks") fields_in(network$banks_file[1]) else names(kinds)
  type_of <- function(name) if (identical(unname(kinds[name]), "amount")) "integer" else "string"
  lapply(columns, function(name) list(name = name, type = type_of(name)))
}

# The media types of files by their endings.
MEDIA <- c(
  csv = "text/csv",
  toml = "application/toml",
  json = "application/json",
  ods = "application/vnd.oasis.opendocument.spreadsheet",
  xlsx = "application/vnd.openxmlformats-officedocument.spreadsheetml.sheet"
)

# A file of a case as a resource: one of CASE_FILES by what it is, or the copy of a sheet by its path in the folder.
resource_of <- function(what, path, file, network, before) {
  ending <- sub("^.*[.]", "", basename(path))
  made <- drop_null(list(
    name = if (is.null(what)) gsub("[[:space:]/]+", "-", path) else what,
    path = path,
    format = ending,
    mediatype = if (ending %in% names(MEDIA)) MEDIA[[ending]],
    encoding = if (ending %in% c("csv", "toml", "json")) "utf-8",
    bytes = file.size(file),
    hash = hash_of(file)
  ))
  if (!is.null(what) && ending == "csv") made$schema <- list(fields = fields_of(what, network))
  old <- Filter(function(one) identical(path_of(one), path), before)
  if (length(old)) made <- utils::modifyList(old[[1]], list(bytes = made$bytes, hash = made$hash))
  drop_null(made)
}

# The files of a case in a folder as resources.
resources_of <- function(case, folder) {
  present <- CASE_FILES[file.exists(file.path(folder, CASE_FILES))]
  before <- case$document[["resources"]]
  described <- function(what, path) resource_of(what, path, file.path(folder, path), case$network, before)
  sheets <- if (length(case$sheets)) paste0(SHEETS, "/", names(case$sheets)) else character(0)
  unname(c(Map(described, names(present), present), lapply(sheets, function(path) described(NULL, path))))
}

# The name of a case without a name: its title in small letters, digits and dashes.
name_of <- function(title) {
  name <- gsub("[^a-z0-9]+", "-", tolower(iconv(title, "UTF-8", "ASCII//TRANSLIT", sub = "-")))
  gsub("^-+|-+$", "", name)
}

# The description of a case whose files stand in a folder.
document_of <- function(case, folder) {
  before <- case$document
  made <- list(
    "$schema" = "https://datapackage.org/profiles/2.0/datapackage.json",
    name = or(before[["name"]], name_of(case$title)),
    title = case$title,
    description = case$description,
    created = or(before[["created"]], format(Sys.time(), "%Y-%m-%dT%H:%M:%SZ", tz = "UTC")),
    version = before[["version"]],
    contributors = before[["contributors"]],
    sources = before[["sources"]],
    resources = resources_of(case, folder)
  )
  if (!nzchar(made$name)) made$name <- "case"
  made <- Filter(function(value) !is.null(value) && !identical(value, ""), made)
  ours <- list(asOf = case$as_of, test = case$test, currency = case$currency, unit = case$unit,
               limits = case$limits, keep = case$keep)
  check_described(ours)
  kept <- before[["clearing"]][setdiff(names(before[["clearing"]]), names(ours))]
  others <- before[setdiff(names(before), c(names(made), "clearing", "title", "description"))]
  c(made, list(clearing = c(drop_null(ours), kept)), others)
}
