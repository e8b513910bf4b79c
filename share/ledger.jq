# The certificates of a ledger that count for the device as it is: from its last format on, and of
# those with the same number the last. Lines that are no certificate, such as one that a fault tore,
# are skipped.
def certificates: [inputs | fromjson? | objects];
def chain:
  certificates
  | .[(map(.commit) | rindex(0)) // 0:]
  | reduce .[] as $next ([]; (if .[-1].commit == $next.commit then .[:-1] else . end) + [$next]);
