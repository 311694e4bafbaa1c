(ns jepsen.generator
  "Of Jepsen what the generator needs: the protocol, and sequences and nil as generators."
  (:refer-clojure :exclude [update]))

(defprotocol Generator
  (update [gen test context event])
  (op [gen test context]))

(extend-protocol Generator
  nil
  (update [_ _ _ _] nil)
  (op [_ _ _] nil)
  clojure.lang.Seqable
  (update [gen _ _ _] gen)
  (op [gen _ _]
    (when-let [[op & gen] (seq gen)]
      [op gen])))
