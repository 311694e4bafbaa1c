(ns jepsen.store
  "Of Jepsen what the checker needs."
  (:require [clojure.java.io :as io]))

(defn path!
  "A file in the folder of a test, whose folder is made."
  [test & names]
  (let [names (map str (remove nil? (flatten names)))
        file (apply io/file (:store test) (:name test) (:start-time test) names)]
    (io/make-parents file)
    file))
