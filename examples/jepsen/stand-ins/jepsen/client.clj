(ns jepsen.client
  "Of Jepsen what the client needs.")

(defprotocol Client
  (open! [client test node])
  (setup! [client test])
  (invoke! [client test op])
  (teardown! [client test])
  (close! [client test]))
