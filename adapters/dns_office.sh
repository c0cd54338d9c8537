#!/usr/bin/env sh
# The interface of acme.sh to office-acme: put it into acme.sh's folder `dnsapi`, and issue with `--dns dns_office`.
# OFFICE_ACME names the command if it is not in the path; its settings are where office-acme looks for them.

dns_office_add() {
    "${OFFICE_ACME:-office-acme}" present "$1" "$2"
}

dns_office_rm() {
    "${OFFICE_ACME:-office-acme}" cleanup "$1" "$2"
}
