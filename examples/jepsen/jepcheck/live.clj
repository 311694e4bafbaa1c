(ns jepcheck.live
  "Checks a Jepsen test while it runs: a wrapper of its client writes each operation to `jepcheck
  serve` as it happens.

    (let [run (live/start \"/usr/local/bin/jepcheck\")]
      {:client    (live/checked (MyClient. ..) run)
       :generator (live/until-refuted run {:allowed :read-committed} (gen/clients ..))
       :checker   (checker/compose {:live (live/checker run {:allowed :read-committed}), ..})
       ..})

  `start` runs the program with as many cells as there may be:

    jepcheck serve --cells 1048576 IN OUT IN OUT

  with one session for all clients, in which a line and its reply are one step, and one for
  verdicts, so that these hold up nobody. `(live/verdict run)` asks for one at any time.
  `until-refuted` ends the operations once a verdict, of which one is asked for every second, finds
  what isn't allowed; `checker` gives the last verdict and ends the program. For their options see
  jepcheck.checker; without any, nothing is allowed. The completion of each operation has, as :txn,
  the name that verdicts have for it, as \"T21\"."
  (:require [clojure.edn :as edn]
            [clojure.java.io :as io]
            [clojure.java.shell :as shell]
            [clojure.string :as str]
            [jepcheck.checker :as verdicts]
            [jepsen.checker :as checker]
            [jepsen.client :as client]
            [jepsen.generator :as gen])
  (:import (java.io BufferedReader BufferedWriter EOFException IOException StringWriter)
           (java.nio.file Files)
           (java.nio.file.attribute FileAttribute)))

;; Sessions.

(defn session
  "Opens a pair of named pipes, in the order in which `jepcheck serve` does. Waits for it."
  [in out]
  (let [lines (io/writer in)]
    {:lines lines, :replies (io/reader out)}))

(defn- write-line [^BufferedWriter lines line]
  (try (.write lines (str line "\n"))
       (.flush lines)
       (catch IOException _ (throw (EOFException. "jepcheck has ended")))))

(defn- reply-line [^BufferedReader replies]
  (or (.readLine replies) (throw (EOFException. "jepcheck has ended"))))

(defn ask
  "Writes a line, waits for the reply, and returns its lines: one, except for `read` and `verdict`."
  [{:keys [lines replies] :as session} line]
  (locking session
    (write-line lines line)
    (let [reply (reply-line replies)]
      (cond
        (str/starts-with? reply "events ")
        (into [reply] (repeatedly (parse-long (subs reply 7)) #(reply-line replies)))

        (str/starts-with? reply "prefix ")
        (loop [reply [reply]]
          (if (str/starts-with? (peek reply) "strict ")
            reply
            (recur (conj reply (reply-line replies)))))

        :else [reply]))))

(defn start
  "Starts the program, with a session for clients and one for verdicts. More words are options of
  `serve`."
  [program & options]
  (let [dir (.toFile (Files/createTempDirectory "jepcheck-" (make-array FileAttribute 0)))
        pipes (for [session ["clients" "verdicts"], way ["in" "out"]]
                (str (io/file dir (str session "." way))))
        {:keys [exit err]} (apply shell/sh "mkfifo" pipes)
        _ (when-not (zero? exit) (throw (ex-info err {})))
        words (concat [program "serve" "--cells" "1048576"] options pipes)
        process (-> (ProcessBuilder. ^java.util.List (mapv str words))
                    (.redirectErrorStream true)
                    (.redirectOutput (io/file dir "said.txt"))
                    .start)
        ended (future (.waitFor process) (slurp (io/file dir "said.txt")))
        sessions (future (mapv #(apply session %) (partition 2 pipes)))
        opened (loop []
                 (cond
                   (realized? sessions) @sessions
                   (realized? ended) (let [why (str "jepcheck has ended: " (str/trim @ended))]
                                       (future-cancel sessions)
                                       (throw (ex-info why {})))
                   :else (do (Thread/sleep 10) (recur))))]
    {:clients (first opened)
     :analyst (second opened)
     :process process
     :dir dir
     :sequential? (boolean (some #{"sequential" "--keys=sequential"} options))}))

(defn stop
  "Ends the sessions, and so the program."
  [{:keys [clients analyst ^Process process dir]}]
  (doseq [{:keys [^BufferedWriter lines ^BufferedReader replies] :as it} [clients analyst]]
    (try (ask it "quit")
         (.close lines)
         (.close replies)
         (catch IOException _)))
  (.waitFor process)
  (run! #(io/delete-file % true) (reverse (file-seq dir))))

(defn verdict
  "The verdict on what was recorded so far, as a map: :refuted?, :anomalies with their :level and
  :steps, and :prefix, how many events it is of."
  [{:keys [analyst]}]
  (verdicts/parse (str (str/join "\n" (ask analyst "verdict")) "\n")))

;; The client.

(defn- record!
  "Records an invocation or a completion. Returns the reply."
  [{:keys [clients]} op]
  (let [out (StringWriter.)]
    (binding [*print-length* nil, *print-level* nil]
      (verdicts/write-op out (dissoc op :index)))
    (first (ask clients (str/trimr (str out))))))

(defn- refused? [reply]
  (str/starts-with? reply "refused "))

(defn- complete!
  "Runs an operation. An exception is recorded as :info, and goes on to Jepsen, which logs it."
  [client run test op]
  (try (client/invoke! client test op)
       (catch Throwable e
         (record! run (assoc op :type :info))
         (throw e))))

(defn- invoke-recorded!
  "The invocation is recorded before the database sees anything of it, and the completion after the
  database has replied. If the invocation is refused, the transaction is not run. If the completion
  is, the operation ends as :info, which retires its process."
  [client run test op]
  (let [invoked (record! run op)]
    (if (refused? invoked)
      (assoc op :type :fail, :error [:jepcheck invoked])
      (let [txn (str/replace invoked "event " "T")
            completion (assoc (complete! client run test op) :txn txn)
            completed (record! run completion)]
        (if (refused? completed)
          (let [unknown (assoc op :type :info, :error [:jepcheck completed])]
            (record! run unknown)
            unknown)
          completion)))))

(defrecord Checked [client run]
  client/Client
  (open! [this test node]
    (assoc this :client (client/open! client test node)))
  (setup! [_ test]
    (client/setup! client test))
  (invoke! [_ test op]
    (if (contains? #{:txn nil} (:f op))
      (invoke-recorded! client run test op)
      (client/invoke! client test op)))
  (teardown! [_ test]
    (client/teardown! client test))
  (close! [_ test]
    (client/close! client test)))

(defn checked [client run]
  (Checked. client run))

;; The generator.

(defrecord UntilRefuted [refuted inner]
  gen/Generator
  (op [_ test context]
    (when-not @refuted
      (when-let [[op after] (gen/op inner test context)]
        [op (UntilRefuted. refuted after)])))
  (update [_ test context event]
    (UntilRefuted. refuted (gen/update inner test context event))))

(defn until-refuted
  "A generator that ends once a verdict finds what isn't allowed. One is asked for every second."
  ([run generator]
   (until-refuted run {} generator))
  ([{:keys [^Process process] :as run} options generator]
   (let [{:keys [allowed]} (verdicts/complete options)
         refuted (atom false)]
     (future
       (while (and (.isAlive process) (not @refuted))
         (Thread/sleep 1000)
         (try (reset! refuted (some? (seq (verdicts/forbidden (:anomalies (verdict run)) allowed))))
              (catch IOException _))))
     (UntilRefuted. refuted generator))))

;; The checker.

(defn- save!
  "Writes what was recorded, and the verdict on it."
  [{:keys [analyst]} dir text events]
  (with-open [out (io/writer (io/file dir "history.edn"))]
    (doseq [at (range 0 events 1024)
            line (rest (ask analyst (str "read " at " " (min events (+ at 1024)))))]
      (.write out (str line "\n"))))
  (spit (io/file dir "verdict.txt") text))

(defn- op-named
  "The completion of a transaction, or else its invocation as it was recorded."
  [{:keys [analyst]} by-name t]
  (let [number (parse-long (subs t 1))]
    (or (by-name t)
        (edn/read-string (second (ask analyst (str "read " number " " (inc number))))))))

(defn- check-run [run {:keys [allowed fs explain-by]} test history opts]
  (let [text (str (str/join "\n" (ask (:analyst run) "verdict")) "\n")
        verdict (verdicts/parse text)]
    (if-not verdict
      {:valid? :unknown, :error (str/trim text)}
      (let [dir (verdicts/directory test opts "jepcheck-live")
            ops (verdicts/transactions history fs)
            by-name (into {} (map (juxt :txn identity)) (filter :txn ops))
            nothing (verdicts/nothing-to-see ops verdict (:sequential? run))
            result (verdicts/judge verdict allowed #(op-named run by-name %) nothing)]
        (save! run dir text (:prefix verdict))
        (verdicts/explained result explain-by dir)))))

(defn checker
  "A checker that gives the verdict on what was recorded, and ends the program. For its options and
  its result see jepcheck.checker."
  ([run]
   (checker run {}))
  ([run options]
   (let [options (verdicts/complete options)]
     (reify checker/Checker
       (check [_ test history opts]
         (try (check-run run options test history opts)
              (catch IOException e
                {:valid? :unknown, :error (ex-message e)})
              (finally (stop run))))))))
