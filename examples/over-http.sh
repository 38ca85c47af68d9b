#!/usr/bin/env bash
# Asks the office over HTTP, as `./grundbuch serve --desks 1 --requests 100` answers in a folder with
# no journal: folio 7 is opened, and again, and read; then it is charged, and its ranks are read.
set -euo pipefail
cd "$(dirname "$0")"

office=http://127.0.0.1:7117

# One of the lines of two-lines.jsonl, without its stamp: the office's clock gives one.
line() {
    sed -n "$1p" two-lines.jsonl | sed 's/"day":"[^"]*","minute":[0-9]*,//'
}

line 1 | curl -sS --data-binary @- "$office/receipts"
line 1 | curl -sS --data-binary @- "$office/receipts"
curl -sS "$office/folios/7"
line 2 | curl -sS --data-binary @- "$office/receipts"
curl -sS "$office/receipts/2"
curl -sS "$office/folios/7/ranks"
