(ns check
  "What `check` runs, with the folder of the examples and one for files."
  (:require [clojure.edn :as edn]
            [clojure.java.io :as io]
            [clojure.string :as str]
            [jepcheck.checker :as jepcheck]
            [jepcheck.live :as live]
            [jepsen.checker :as checker]
            [jepsen.client :as client]
            [jepsen.generator :as gen]))

(let [[one two] *command-line-args*]
  (def examples one)
  (def folder two))
(def program (System/getenv "JEPCHECK"))
(def notice
  "What the launcher says of a program that isn't proved."
  #"jepcheck: this build isn't proved.*\n")
(def wrong (atom 0))

(defn expect [about got wanted]
  (when (not= got wanted)
    (swap! wrong inc)
    (println "jepsen:" about "gives" (pr-str got) "and not" (pr-str wanted))))

;; Jepsen's operations are records that are printed with a tag.
(defrecord Op [index time type process f value])

(defn history [example]
  (let [text (slurp (io/file examples (str example ".edn")))]
    (mapv map->Op (edn/read-string {:default (fn [_ form] form)} (str "[" text "]")))))

(defn op [type process & mops]
  {:type type, :process process, :f :txn, :value (vec mops)})

(defn check [history & words]
  (binding [*print-length* 2]
    (checker/check (apply jepcheck/jepcheck words) {} history {})))

;; The checker.

(defn found [example & [options]]
  (let [{:keys [valid? anomaly-types anomalies allowed error]}
        (check (history example) program (or options {}))]
    [valid? anomaly-types (update-vals anomalies :level) (or allowed error)]))

(def some-levels
  {:G-single :plain, :G1a :yes, :G1b :yes, :G1c :plain, :G2-item :plain})

(def stale
  {:G-single :realtime, :G2-item :realtime})

(doseq [[example options wanted]
        [["clean" {} [true [] {} nil]]
         ["dependencies" {} [true [] {} nil]]
         ["postgresql-serializable" {} [true [] {} nil]]
         ["stale-read" {} [false [:G-single :G2-item] stale nil]]
         ["as-jepsen-prints" {} [false [:G1a] {:G1a :yes} nil]]
         ["mariadb-read-uncommitted" {} [false [:G-single :G1a :G1b :G1c :G2-item] some-levels nil]]
         ["mariadb-read-uncommitted" {:allowed :read-uncommitted}
          [true [] some-levels [:G-single :G1a :G1b :G1c :G2-item]]]
         ["mariadb-read-uncommitted" {:allowed :read-committed}
          [false [:G1a :G1b :G1c] some-levels [:G-single :G2-item]]]
         ["postgresql-read-committed" {:allowed :read-committed}
          [true [] {:G-single :plain, :G2-item :plain} [:G-single :G2-item]]]
         ["stale-read" {:allowed :serializable}
          [true [] stale [:G-single :G2-item]]]
         ["stale-read" {:allowed {:G-single :realtime}}
          [false [:G2-item] stale [:G-single]]]
         ["write-skew" {:allowed {:G2-item :process}} [false [:G2-item] {:G2-item :plain} nil]]
         ["stray-read" {} [:unknown [] {} "1 read returned what nobody wrote"]]
         ["late-read" {} [:unknown [] {} "no write is known to follow another one of its key"]]
         ["late-read" {:keys "sequential", :workers 2}
          [false [:G-single :G2-item] stale nil]]]]
  (expect [example options] (found example options) wanted))

;; What isn't checked, and why.
(doseq [[history error op]
        [[[] "no transaction of a client"]
         [[{:type :info, :process :nemesis, :f :kill}] "no transaction of a client"]
         [[{:type :invoke, :process 0, :f :drain, :value nil}] "no transaction of a client"]
         [[(op :ok 3)] "status 2: refused 5 Idle event 0" (op :ok 3)]
         [[(op :invoke 0 [:w :x 1]) (op :ok 0 [:w :x 1]) (op :invoke 1 [:w "\n" nil])]
          "status 2: refused 34 NilWritten byte 137" (op :invoke 1 [:w "\n" nil])]
         [[(op :invoke 0 [:w :x 1]) (op :fail 0)] "no transaction was ok"]
         [[(op :invoke 0 [:r :x nil]) (assoc (op :info 0) :exception (Exception. "unreadable"))]
          "no transaction was ok"]
         [[(op :invoke 0 [:w :x 1]) (op :ok 0 [:w :x 1])] "no read saw or missed a write"]
         [[(op :invoke 0 [:r :x nil]) (op :ok 0 [:r :x nil])]
          "no write is known to have happened"]]]
  (expect history (select-keys (check history program) [:valid? :error :op])
          (cond-> {:valid? :unknown, :error error}
            op (assoc :op op))))

;; Programs that are none, and options that aren't there.
(doseq [[words wanted]
        [[[nil] "no program is named"]
         [["/no/such/jepcheck"] "Cannot run program \"/no/such/jepcheck\".*"]
         [["false"] "status 1:"]
         [[program {:keys "odd"}] "status 2: error: invalid value 'odd' for '--keys <ORDER>'.*"]]
        :let [{:keys [valid? error]} (apply check (history "stale-read") words)
              line (first (str/split-lines (str/replace error notice "")))]]
  (expect words [valid? (some? (re-matches (re-pattern wanted) line))] [:unknown true]))
(expect "which program" (str/replace (:program (check [(op :ok 3)] program)) #"\d+" "N")
        "jepcheck N.N.N")
(let [old (io/file folder "old")]
  (spit old "#!/bin/sh\necho jepcheck 0.0.9: old >&2\necho none; exit 1\n")
  (.setExecutable old true)
  (expect "another version"
          (select-keys (check (history "stale-read") old) [:valid? :error :program])
          {:valid? :unknown, :error "status 1: none", :program "jepcheck 0.0.9"}))
(expect "a level that isn't there"
        (try (jepcheck/jepcheck program {:allowed :repeatable-read})
             (catch AssertionError _ :refused))
        :refused)

;; Other operations of clients, lazy values, records, big integers, strings.
(let [odd "a \"b\" \\ \n -> T9"
      history [{:index 3, :type :info, :process :nemesis, :f :kill}
               {:index 4, :type :invoke, :process 0, :f :txn
                :value (map vec (list [:w "k" odd] (list :r 5N nil)))}
               {:index 5, :type :invoke, :process 1, :f :read, :value nil}
               {:index 6, :type :invoke, :process 2, :f :txn, :value [[:r "k" nil] [:w 5 7N]]}
               {:index 7, :type :ok, :process 1, :f :read, :value 5}
               {:index 8, :type :ok, :process 2, :f :txn, :value [[:r "k" nil] [:w 5 7N]]}
               {:index 9, :type :ok, :process 0, :f :txn, :value [[:w "k" odd] [:r 5N nil]]}]
      {:keys [valid? anomalies]} (check history program)]
  (expect "odd values" valid? false)
  (expect "steps" (:steps (:G2-item anomalies))
          ["T0 -rw 5 nil 7-> T1" "T1 -rw \"k\" nil \"a \\\"b\\\" \\\\ \\n -> T9\"-> T0"])
  (expect "operations" (update-vals (:ops (:G2-item anomalies)) :index) {"T0" 9, "T1" 8}))

;; Files in the store of the test.
(defn first-line [directory file]
  (first (str/split-lines (slurp (io/file directory file)))))

(let [test {:store folder, :name "registers", :start-time "2026"}
      history (history "postgresql-read-committed")
      {:keys [directory anomalies explanation-error]}
      (checker/check (jepcheck/jepcheck program) test history {:subdirectory ["independent" 3]})
      files (set (map #(.getName %) (.listFiles (io/file directory))))]
  (expect "the folder" directory
          (str (io/file folder "registers" "2026" "independent" "3" "jepcheck")))
  (expect "the verdict" (slurp (io/file directory "verdict.txt"))
          (slurp (io/file examples "postgresql-read-committed.check.out")))
  (expect "T21 and T33" (update-vals (:ops (:G-single anomalies)) :index) {"T21" 35, "T33" 37})
  (expect "explanation" [explanation-error (first-line directory "explanation.txt")]
          [nil "G-single plain: read skew"])
  (expect "files" (disj files "cycles.svg")
          #{"history.edn" "verdict.txt" "explanation.txt" "cycles.dot"}))
(let [{:keys [explanation-error valid?]}
      (check (history "stale-read") program {:explain "/no/such/explain"})]
  (expect "a missing explain" [valid? (some? (re-find #"No such file" explanation-error))]
          [false true]))

;; Time: 200,000 operations.
(let [history (vec (for [n (range 100000), type [:invoke :ok]]
                     (let [key (mod n 8)
                           seen (when (and (= type :ok) (<= 8 n)) (- n 8))]
                       (->Op (* 2 n) 5 type key :txn [[:r key seen] [:w key n]]))))
      begin (System/nanoTime)
      {:keys [valid?]} (check history program)
      seconds (/ (- (System/nanoTime) begin) 1e9)]
  (expect "a long history" valid? true)
  (when (System/getenv "SECONDS_OF_JEPSEN")
    (println "200,000 operations:" seconds "s"))
  (expect "the time for 200,000 operations" (< seconds 60) true))

;; The client of a live run: a register whose read is stale, a connection that is lost, an answer to
;; another question.
(defrecord Database []
  client/Client
  (open! [this _ _] this)
  (setup! [_ _])
  (invoke! [_ _ op]
    (case (:value op)
      [[:w :x 2]] (throw (ex-info "the connection is lost" {}))
      [[:w :x 3]] (assoc op :type :ok, :value [])
      (assoc op :type :ok)))
  (teardown! [_ _])
  (close! [_ _]))

(defn invoke [client op]
  (try (client/invoke! client {} op)
       (catch clojure.lang.ExceptionInfo e
         (assoc op :type :info, :exception (ex-message e)))))

(let [run (live/start program)
      client (client/open! (live/checked (->Database) run) {} "n1")
      ops [(op :invoke 0 [:w :x 1])
           (op :invoke 1 [:r :x nil])
           (op :invoke 2 [:w :x 2])
           (op :invoke 2 [:w :x 4])
           (op :invoke 3 [:w :x 3])
           {:type :invoke, :process 4, :f :drain}]
      done (do (client/setup! client {})
               (mapv #(invoke client %) ops))
      patient (live/until-refuted run {:allowed stale} (repeat (op :invoke 5 [:r :x nil])))
      generator (live/until-refuted run (cycle [(op :invoke 5 [:r :x nil])]))
      generated (loop [gen generator, count 0]
                  (Thread/sleep 10)
                  (if-let [[op after] (gen/op gen {} {})]
                    (recur (gen/update after {} {} op) (inc count))
                    count))
      asked (live/verdict run)
      test {:store folder, :name "live", :start-time "2026"}
      {:keys [valid? anomaly-types anomalies directory]}
      (checker/check (live/checker run) test (vec (interleave ops done)) {})]
  (expect "what a client returns" (map #(dissoc % :f :value) done)
          [{:type :ok, :process 0, :txn "T0"}
           {:type :ok, :process 1, :txn "T2"}
           {:type :info, :process 2, :exception "the connection is lost"}
           {:type :fail, :process 2, :error [:jepcheck "refused 2 Retired event 6"]}
           {:type :info, :process 3, :error [:jepcheck "refused 6 Mismatch event 7"]}
           {:type :ok, :process 4}])
  (expect "a generator that ends" (< 10 generated) true)
  (expect "one that doesn't" (some? (gen/op patient {} {})) true)
  (expect "a verdict meanwhile" (dissoc asked :anomalies)
          {:refuted? true, :prefix 8, :txns 4, :stray 0})
  (expect "the last verdict" [valid? anomaly-types] [false [:G-single :G2-item]])
  (expect "its operations" (:ops (:G-single anomalies)) {"T0" (nth done 0), "T2" (nth done 1)})
  (expect "what is saved" (count (str/split-lines (slurp (io/file directory "history.edn")))) 8)
  (expect "what is explained" (first-line directory "explanation.txt")
          "G-single realtime: stale read")
  (expect "the program" (.exitValue (:process run)) 0)
  (expect "the pipes" (.exists (:dir run)) false))

;; A run whose program has ended, one that can't start, and many threads.
(let [run (live/start program)]
  (.destroy ^Process (:process run))
  (.waitFor ^Process (:process run))
  (let [{:keys [valid? error]} (checker/check (live/checker run) {} [] {})]
    (expect "a program that has ended" [valid? error] [:unknown "jepcheck has ended"])))
(expect "options that are refused"
        (try (live/start program "--keys" "odd")
             (catch clojure.lang.ExceptionInfo e (re-find #"invalid value 'odd'" (ex-message e))))
        "invalid value 'odd'")
(let [run (live/start program "--keys" "sequential")
      client (live/checked (->Database) run)
      work (fn [process]
             (dotimes [n 500]
               (let [mops [[:r process nil] [:w (str process) n]]]
                 (client/invoke! client {} (apply op :invoke process mops)))))]
  (run! deref (mapv #(future (work %)) (range 8)))
  (expect "sequential keys" (:sequential? run) true)
  (expect "eight threads" (select-keys (live/verdict run) [:prefix :txns :refuted?])
          {:prefix 8000, :txns 4000, :refuted? false})
  (live/stop run))

(shutdown-agents)
(System/exit (if (zero? @wrong) 0 1))
