(ns jepcheck.checker
  "A Jepsen checker that gives the history of a test to `jepcheck check`:

    {:checker (jepcheck.checker/jepcheck \"/usr/local/bin/jepcheck\" {:allowed :read-committed}) ..}

  The options, of which none is needed:

    :allowed  what isn't held against the database: for a phenomenon the lowest level at which it is
              allowed, as {:G-single :plain, :G2-item :process, :G1a :yes}; or a name in `levels`
    :keys     \"sequential\", if each register is sequentially consistent for each client
    :workers  how many threads the program may use
    :fs       the set of the :f that are transactions, else :txn and operations without :f
    :explain  the script examples/explain, else the one beside this folder, if it is there; needs
              Python 3

  The result, as Elle's:

    :valid?         true, false, or :unknown with the reason as :error: the history wasn't checked,
                    or there was nothing to see in it (no transaction was ok, reads returned what
                    nobody wrote, no write is known to follow another one)
    :anomaly-types  the phenomena that aren't allowed, [:G-single :G2-item]
    :anomalies      of each phenomenon its :level, its :steps, as \"T21 -wr 3 4-> T33\", and its
                    :ops, by these names: the ok of a transaction, or else its invocation
    :allowed        those of them that are allowed
    :txns, :stray   how many transactions there are, and reads of what nobody wrote
    :directory      where history.edn and verdict.txt are, what the program read and printed; and,
                    if something was found and `explain` runs, explanation.txt and cycles.dot, and
                    cycles.svg if Graphviz is there. Within a test it is in its store

  For snapshot isolation ask examples/levels with these files: a verdict alone doesn't tell a write
  skew from a lost update."
  (:require [clojure.java.io :as io]
            [clojure.string :as str]
            [jepsen.checker :as checker]
            [jepsen.store :as store])
  (:import (java.io File IOException Writer)
           (java.lang ProcessBuilder$Redirect)
           (java.nio.file Files)
           (java.nio.file.attribute FileAttribute)))

(def levels
  "What is allowed at an isolation level."
  {:read-uncommitted
   {:G0 :process, :G1a :yes, :G1b :yes, :G1c :plain, :G-single :plain, :G2-item :plain}
   :read-committed {:G0 :process, :G1c :process, :G-single :plain, :G2-item :plain}
   :serializable {:G0 :process, :G1c :process, :G-single :process, :G2-item :process}
   :strict-serializable {}})

;; The history, as the program reads it.

(defn transactions
  "The operations of clients that are transactions. T21 is the one with this number."
  [history fs]
  (filterv #(and (integer? (:process %)) (contains? fs (:f %))) history))

(defn- write-atom [^Writer out it]
  (cond
    (instance? Long it) (.write out (Long/toString it))
    (nil? it) (.write out "nil")
    :else (print-method it out)))

(defn- write-value [^Writer out value]
  (if (and (sequential? value) (every? #(and (vector? %) (= 3 (count %))) value))
    (do (.write out "[")
        (reduce (fn [^String before mop]
                  (.write out before)
                  (write-atom out (nth mop 0))
                  (.write out " ")
                  (write-atom out (nth mop 1))
                  (.write out " ")
                  (write-atom out (nth mop 2))
                  (.write out "]")
                  " [")
                "["
                value)
        (.write out "]"))
    (print-method value out)))

(defn write-op
  "Writes what the program reads of an operation, as a line."
  [^Writer out {:keys [index type process value]}]
  (.write out "{:type ")
  (write-atom out type)
  (.write out ", :process ")
  (write-atom out process)
  (.write out ", :value ")
  (write-value out value)
  (when index
    (.write out ", :index ")
    (write-atom out index))
  (.write out "}\n"))

(defn- write-history [^File file ops]
  (with-open [out (io/writer file)]
    (binding [*print-length* nil, *print-level* nil]
      (run! #(write-op out %) ops))))

;; The program.

(defn- run-program
  "Runs a command. Returns its exit status and what it says on standard error, or an :error."
  [words ^File in ^File out]
  (try
    (let [process (-> (ProcessBuilder. ^java.util.List (mapv str words))
                      (.redirectInput (or in (io/file "/dev/null")))
                      (.redirectOutput (ProcessBuilder$Redirect/to (or out (io/file "/dev/null"))))
                      .start)
          said (slurp (.getErrorStream process))]
      {:exit (.waitFor process), :said said})
    (catch IOException e
      {:error (ex-message e)})))

(defn- version
  "What the program says that it is, as \"jepcheck 0.2.0\"."
  [program]
  (let [{:keys [said]} (run-program [program "--help"] nil nil)]
    (re-find #"jepcheck \d\S*\d" (or said ""))))

;; The verdict.

(defn- phenomenon
  "A phenomenon, from its line and those below it."
  [[line & below]]
  (let [[_ named level] (re-matches #"(G\S+) (yes|plain|process|realtime)" line)]
    [(keyword named) {:level (keyword level), :steps (mapv str/trim below)}]))

(defn- number-in [verdict word]
  (parse-long (second (re-find (re-pattern (str "(?m)^" word " (\\d+)$")) verdict))))

(defn parse
  "A verdict as a map, or nil if the text is none."
  [text]
  (when (re-matches #"(?s)prefix \d+\ntxns \d+\n.*\nstray \d+\nstrict (open|refuted)\n" text)
    (let [found (re-seq #"(?m)^G\S+ (?:yes|plain|process|realtime)$(?:\n  .*)+" text)]
      {:anomalies (into (sorted-map) (map (comp phenomenon str/split-lines)) found)
       :prefix (number-in text "prefix")
       :txns (number-in text "txns")
       :stray (number-in text "stray")
       :refuted? (str/ends-with? text "strict refuted\n")})))

(defn named-in
  "The transactions that are named in a step."
  [step]
  (remove nil? (rest (re-matches #"(?s)(T\d+) -.*-> (T\d+)|(T\d+) read .* of (T\d+)" step))))

(defn- allowed? [allowed [phenomenon {:keys [level]}]]
  (let [rank {:yes 0, :plain 0, :process 1, :realtime 2}]
    (when-let [lowest (allowed phenomenon)]
      (<= (rank lowest) (rank level)))))

(defn- external-reads
  "The keys and values that a transaction read from others."
  [{:keys [value]}]
  (second (reduce (fn [[written reads] [f k v]]
                    (cond
                      (= f :w) [(conj written k) reads]
                      (written k) [written reads]
                      :else [written (conj reads [k v])]))
                  [#{} []]
                  value)))

(defn- orders-a-write?
  "Whether a transaction wrote a key after it had read another version than nil."
  [{:keys [value]}]
  (loop [seen #{}, mops value]
    (when-let [[f k v] (first mops)]
      (cond
        (and (= f :w) (seen k)) true
        (and (= f :r) (some? v)) (recur (conj seen k) (next mops))
        :else (recur seen (next mops))))))

(defn nothing-to-see
  "Why nothing can be seen in a history in which nothing was found, or nil."
  [ops {:keys [stray]} sequential?]
  (let [oks (filter #(= :ok (:type %)) ops)
        writes (for [op oks, [f k] (:value op) :when (= f :w)] k)]
    (cond
      (empty? oks) "no transaction was ok"
      (pos? stray) (str stray (if (= 1 stray) " read" " reads") " returned what nobody wrote")
      (empty? writes) "no write is known to have happened"
      (and (not sequential?) (not (apply distinct? writes)) (not-any? orders-a-write? oks))
      "no write is known to follow another one of its key"
      (not-any? (fn [[k v]] (or (some? v) (some #{k} writes))) (mapcat external-reads oks))
      "no read saw or missed a write")))

(defn forbidden
  "Those of the anomalies of a verdict that aren't allowed."
  [anomalies allowed]
  (remove #(allowed? allowed %) anomalies))

(defn judge
  "The result for a verdict: what is found and what of it is allowed. `op-named` gives the operation
  of a transaction, and `nothing` is why nothing can be seen, or nil."
  [verdict allowed op-named nothing]
  (let [named (fn [{:keys [steps] :as it}]
                (let [names (mapcat named-in steps)]
                  (assoc it :ops (into (sorted-map) (map (juxt identity op-named)) names))))
        anomalies (update-vals (:anomalies verdict) named)
        wrong (forbidden anomalies allowed)
        allows (mapv key (filter #(allowed? allowed %) anomalies))
        result (cond-> {:anomaly-types (mapv key wrong)
                        :anomalies anomalies
                        :txns (:txns verdict)
                        :stray (:stray verdict)}
                 (seq allows) (assoc :allowed allows))]
    (cond
      (seq wrong) (assoc result :valid? false)
      nothing (assoc result :valid? :unknown, :error nothing)
      :else (assoc result :valid? true))))

(defn- op-named
  "The ok of a transaction, or else its invocation."
  [ops t]
  (let [number (parse-long (subs t 1))
        {:keys [process] :as invocation} (nth ops number)
        completion (first (filter #(= process (:process %)) (subvec ops (inc number))))]
    (if (= :ok (:type completion)) completion invocation)))

(defn- refused-op
  "The operation that is refused, or nil: by its number, or as the line that has a byte."
  [ops ^File history printed]
  (when-let [[_ place number] (re-find #"^refused \d+ \w+ (event|byte) (\d+)" printed)]
    (let [number (parse-long number)
          lines-before #(with-open [in (io/input-stream history)]
                          (count (filter #{10} (.readNBytes in (int %)))))]
      (nth ops (if (= "event" place) number (lines-before number)) nil))))

(defn- not-checked
  "The result if there is no verdict."
  [program ops history {:keys [exit said error]} printed]
  (let [why (or error (str/trim (str "status " exit ": " (if (str/blank? printed) said printed))))
        op (refused-op ops history printed)]
    (cond-> {:valid? :unknown, :error why}
      (not error) (assoc :program (version program))
      op (assoc :op op))))

;; The files.

(defn directory
  "The folder for the files of a check: in the store of a test, or else a temporary one."
  ^File [test opts named]
  (if (and (:name test) (:start-time test))
    (.getParentFile ^File (store/path! test (:subdirectory opts) named "verdict.txt"))
    (.toFile (Files/createTempDirectory "jepcheck-" (make-array FileAttribute 0)))))

(defn- beside
  "The script `explain` of the folder that has this one, if it is there."
  []
  (when-let [here (io/resource "jepcheck/checker.clj")]
    (when (= "file" (.getProtocol here))
      (let [examples (nth (iterate #(.getParentFile ^File %) (io/file here)) 3)
            script (io/file examples "explain")]
        (when (.exists script) script)))))

(defn explained
  "The result, with what `explain` makes of the history and the verdict in a folder, in words and as
  a graph."
  [result script ^File dir]
  (let [in #(io/file dir %)
        explain (fn [words out]
                  (let [words (concat ["python3" "-B" script] words [(in "history.edn")])
                        {:keys [exit said error]} (run-program words (in "verdict.txt") (in out))]
                    (or error (when (pos? exit) (str/trim said)))))
        wrong (when (and script (seq (:anomalies result)))
                (or (explain [] "explanation.txt")
                    (explain ["--dot"] "cycles.dot")
                    (let [words ["dot" "-Tsvg" "-o" (in "cycles.svg") (in "cycles.dot")]]
                      (run-program words nil nil)
                      nil)))]
    (cond-> (assoc result :directory (str dir))
      wrong (assoc :explanation-error wrong))))

(defn- check-files
  "The result of a check whose history is in the folder."
  [program {:keys [allowed workers explain-by] order :keys} ^File dir ops]
  (let [words (cond-> [program "check"]
                order (into ["--keys" (name order)])
                workers (into ["--workers" workers]))
        in (io/file dir "history.edn")
        out (io/file dir "verdict.txt")
        ran (run-program words in out)
        printed (if (:error ran) "" (slurp out))
        verdict (parse printed)]
    (if (and verdict (= (:exit ran) (if (:refuted? verdict) 1 0)))
      (let [nothing (nothing-to-see ops verdict (= "sequential" (some-> order name)))]
        (explained (judge verdict allowed #(op-named ops %) nothing) explain-by dir))
      (assoc (not-checked program ops in ran printed) :directory (str dir)))))

(defn complete
  "The options, with what they are if nothing is said."
  [{:keys [allowed fs explain] :or {allowed {}, fs #{:txn nil}} :as options}]
  (let [allowed (if (keyword? allowed) (levels allowed) allowed)]
    (assert (map? allowed) (str ":allowed is a map, or one of " (str/join " " (keys levels))))
    (assoc options :allowed allowed, :fs fs, :explain-by (or explain (beside)))))

(defn jepcheck
  "A checker that runs this program."
  ([program]
   (jepcheck program {}))
  ([program options]
   (let [{:keys [fs] :as options} (complete options)]
     (reify checker/Checker
       (check [_ test history opts]
         (let [ops (transactions history fs)]
           (cond
             (str/blank? (str program)) {:valid? :unknown, :error "no program is named"}
             (empty? ops) {:valid? :unknown, :error "no transaction of a client"}
             :else (let [dir (directory test opts "jepcheck")]
                     (write-history (io/file dir "history.edn") ops)
                     (check-files program options dir ops)))))))))
