(ns jepsen.checker
  "Of Jepsen what the checker needs.")

(defprotocol Checker
  (check [checker test history opts]))
