# JSON: what is read of a text, which texts are refused, and what is written.
source("support/testing.R")
read_json <- clearing:::read_json
write_json <- clearing:::write_json

test("values of each kind are read", {
  expect_same(read_json("null"), NULL)
  expect_same(read_json(" [true, false, -1.5e2, \"a\", null] "), list(TRUE, FALSE, -150, "a", NULL))
  expect_same(read_json("{\"a\": {\"b\": []}, \"c\": null}"), list(a = list(b = list()), c = NULL))
})

test("an empty object has names, and an empty array has none", {
  expect_same(names(read_json("{}")), character(0))
  expect_same(names(read_json("[]")), NULL)
  expect_same(write_json(read_json("{}")), "{}")
  expect_same(write_json(read_json("[]")), "[]")
})

test("escapes are read from left to right", {
  pairs <- list(c("\"\\u00e9 \\ud83d\\ude00\"", "\u00e9 \U0001f600"), c("\"\\\\n\\n\"", "\\n\n"),
                c("\"\u00fc\\\"\\/\\t\"", "\u00fc\"/\t"), c("\"\"", ""))
  for (pair in pairs) expect_same(read_json(pair[1]), pair[2])
})

test("what is no JSON is refused", {
  wrong <- c("", "{", "[", "[1", "[1 2]", "{\"a\"}", "{\"a\": }", "{a: 1}", "{1: 2}", "{} x", "nul", "{\"a\": nul}",
             "01", "+1", "1.", "[,]", "\"\\x\"", "\"\\u12\"", "\"\\u0000\"", "\"a\nb\"")
  for (text in wrong) expect_fault(read_json(text), "not JSON")
})

test("a comma behind the last part is refused", {
  for (text in c("[1,]", "{\"a\": 1,}")) expect_fault(read_json(text), "not JSON")
})

test("a text without its last quote is refused", {
  for (text in c("{\"a\": \"}", "[\"]", "\"")) expect_fault(read_json(text), "not JSON")
})

test("half of a pair of escapes is refused", {
  for (text in c("\"\\ud800\"", "\"\\udc00 \"")) expect_fault(read_json(text), "not JSON: the escape")
})

test("a key that stands twice is refused", expect_fault(read_json("{\"a\": 1, \"a\": 2}"), "stands twice"))

test("nesting is read as far as 64 deep", {
  nested <- function(depth) paste0(strrep("[", depth), strrep("]", depth))
  expect_same(length(read_json(nested(64))), 1L)
  expect_fault(read_json(nested(65)), "nests deeper than 64")
})

test("what is written is read as it was", {
  value <- list(text = "a \\ \"b\"\n\t\u007f \u00e9 \U0001f600", whole = 2^53, part = 0.1 + 0.2, third = 1 / 3,
                half = 0.5, yes = TRUE, none = list(), all = list(list(a = 1), "x"))
  expect_same(read_json(write_json(value)), value)
})

test("numbers are written as short as they are exact", {
  for (text in c("1000000", "0.01", "0.1", "-7", "1.5e-07")) expect_same(write_json(as.numeric(text)), text)
})

test("objects and arrays are written two spaces a level", {
  expect_same(write_json(list(a = list(1, "b"), c = c("x", "y"))),
              "{\n  \"a\": [\n    1,\n    \"b\"\n  ],\n  \"c\": [\n    \"x\",\n    \"y\"\n  ]\n}")
})
