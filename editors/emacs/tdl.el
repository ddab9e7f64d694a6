;;; tdl.el --- Perform with tdl from Emacs  -*- lexical-binding: t; -*-

;; Keywords: multimedia, languages
;; Package-Requires: ((emacs "26.1"))

;;; Commentary:

;; A performer's connection to `tdl serve' or tools/stage.  A line goes there as it would be saved, byte for byte, and
;; its reply is shown behind it and in the echo area.  Where it is refused, the line below has a mark at the slip and
;; what docs/GUIDE.md says of it.  editors/README.md says how to use it.

;;; Code:

(require 'cl-lib)
(require 'subr-x)

(defgroup tdl nil
  "Performing with tdl."
  :group 'languages)

(defcustom tdl-host "127.0.0.1"
  "The machine at which performers are taken."
  :type 'string)

(defcustom tdl-port 6111
  "The port that `tdl-connect' offers: that of performer 1."
  :type 'integer)

(defcustom tdl-explain
  (expand-file-name "../../tools/explain" (file-name-directory (file-truename (or load-file-name buffer-file-name))))
  "The program that tells what docs/GUIDE.md says of each refusal."
  :type 'file)

(defface tdl-reply '((t :inherit shadow)) "A reply behind its line.")
(defface tdl-refused '((t :inherit warning)) "A reply that refuses its line.")
(defface tdl-slip '((t :inherit error :underline t)) "Where a refused line has its slip.")

;;; The connection

(defvar tdl--process nil "The connection, or nil where there was none yet.")
(defvar tdl--place nil "The host and the port of the connection.")
(defvar tdl--asked nil "The lines that have no reply yet, in order.")
(defvar tdl--rest "" "What came behind the last line feed.")
(defvar tdl--said nil "What the port said last by itself, as that it is taken.")

(cl-defstruct (tdl--line (:constructor tdl--line))
  "A line that was sent.
It has its bytes, their coding system, and an overlay where it stands."
  bytes coding overlay)

(defun tdl-connect (host port)
  "Connect to HOST and PORT as a performer.
With a prefix argument ask for the host too."
  (interactive
   (list (if current-prefix-arg (read-string "Host: " tdl-host) tdl-host)
         (read-number "Port: " (or (cadr tdl--place) tdl-port))))
  (tdl-leave)
  (setq tdl--place (list host port))
  (tdl--read-sentences)
  (tdl--open)
  (message "tdl: a performer at %s" (tdl--place)))

(defun tdl-leave ()
  "End the connection."
  (interactive)
  (let ((process tdl--process))
    (setq tdl--process nil
          tdl--asked nil)
    (when process
      (delete-process process))))

(defun tdl--place ()
  (format "port %d of %s" (cadr tdl--place) (car tdl--place)))

(defun tdl--open ()
  "Connect to where it was before, unless it still stands."
  (unless (process-live-p tdl--process)
    (unless tdl--place
      (user-error "No port is known yet: type M-x tdl-connect"))
    (when tdl--asked
      (tdl--lose tdl--process nil))
    (setq tdl--rest ""
          tdl--said nil)
    (condition-case nil
        (setq tdl--process
              (make-network-process
               :name "tdl" :host (car tdl--place) :service (cadr tdl--place) :coding 'binary :noquery t
               :filter #'tdl--hear :sentinel #'tdl--lose))
      (file-error (user-error "Nobody takes performers at %s: nothing is sent" (tdl--place))))))

(defun tdl--ask (line)
  "Send LINE, whose reply comes later."
  (setq tdl--asked (append tdl--asked (list line)))
  (process-send-string tdl--process (concat (tdl--line-bytes line) "\n")))

(defun tdl--hear (process piece)
  "Take the replies that end in PIECE, which comes from PROCESS."
  (when (eq process tdl--process)
    (let ((lines (split-string (concat tdl--rest piece) "\n")))
      (setq tdl--rest (car (last lines)))
      (dolist (reply (butlast lines))
        (let ((line (pop tdl--asked))
              (text (decode-coding-string reply 'utf-8)))
          (if line (tdl--show line text) (message "%s" (setq tdl--said text))))))))

(defun tdl--lose (process _event)
  "Tell that the connection of PROCESS has ended.
Each line that has no reply is told of too."
  (when (eq process tdl--process)
    (let ((count (length tdl--asked)))
      (dolist (line tdl--asked)
        (tdl--put-behind line (propertize "  no reply: it may count or not" 'face 'tdl-refused)))
      (setq tdl--asked nil)
      (if tdl--said
          (message "%s" tdl--said)
        (message "tdl: the connection to %s is lost%s. The next line makes it anew"
                 (tdl--place) (if (zerop count) "" (format "; lines without a reply: %d" count)))))))

;;; What is sent

(defun tdl--coding ()
  "The coding system in which this buffer's lines would be saved.
One that marks a file's start or is not like ASCII counts as UTF-8."
  (let ((own (coding-system-base (or buffer-file-coding-system 'utf-8))))
    (if (or (memq own '(undecided prefer-utf-8))
            (coding-system-get own :bom)
            (not (coding-system-get own :ascii-compatible-p)))
        'utf-8-unix
      (coding-system-change-eol-conversion own 'unix))))

(defun tdl--send (start end)
  "Send the lines from that of START to that of END."
  (tdl--open)
  (save-excursion
    (goto-char start)
    (let ((last (save-excursion (goto-char end) (line-beginning-position)))
          (coding (tdl--coding)))
      (while (progn
               (let* ((from (line-beginning-position))
                      (to (line-end-position))
                      (bytes (encode-coding-string (buffer-substring-no-properties from to) coding)))
                 (tdl--clear from to)
                 (tdl--ask (tdl--line :bytes bytes :coding coding :overlay (tdl--overlay from to))))
               (and (< (point) last) (zerop (forward-line 1)) (<= (point) last)))))))

(defun tdl-send-line ()
  "Send the line of the cursor."
  (interactive)
  (tdl--send (point) (point)))

(defun tdl-send-region (start end)
  "Send the lines from START to END."
  (interactive "r")
  (let ((is-before-line (save-excursion (goto-char end) (bolp))))
    (tdl--send start (if (and is-before-line (< start end)) (1- end) end))))

(defun tdl-send-paragraph ()
  "Send the lines round the cursor, up to those that are blank."
  (interactive)
  (let ((blank "^[ \t]*$"))
    (save-excursion
      (beginning-of-line)
      (when (looking-at blank)
        (user-error "No line here"))
      (tdl--send (save-excursion (if (re-search-backward blank nil t) (1+ (line-end-position)) (point-min)))
                 (save-excursion (if (re-search-forward blank nil t) (1- (line-beginning-position)) (point-max)))))))

(defun tdl-say (text)
  "Send the line TEXT, which stands in no buffer."
  (interactive "sLine: ")
  (tdl--open)
  (tdl--ask (tdl--line :bytes (encode-coding-string text 'utf-8-unix) :coding 'utf-8-unix)))

(defun tdl-hush ()
  "Take every pattern away."
  (interactive)
  (tdl-say "hush"))

;;; What is shown

(defun tdl--overlay (from to)
  "An overlay on the line from FROM to TO."
  (let ((overlay (make-overlay from to nil t))
        (hooks (list #'tdl--look-after)))
    (overlay-put overlay 'tdl (buffer-substring-no-properties from to))
    (dolist (name '(modification-hooks insert-in-front-hooks insert-behind-hooks))
      (overlay-put overlay name hooks))
    overlay))

(defun tdl--look-after (overlay is-done &rest _)
  "Drop OVERLAY once IS-DONE, where its line was changed."
  (when (and is-done (overlay-buffer overlay))
    (save-excursion
      (goto-char (overlay-start overlay))
      (unless (equal (overlay-get overlay 'tdl)
                     (buffer-substring-no-properties (line-beginning-position) (line-end-position)))
        (tdl--drop overlay)))))

(defun tdl--drop (overlay)
  "Take OVERLAY away, and the mark at the slip with it."
  (when-let ((slip (overlay-get overlay 'tdl-slip)))
    (delete-overlay slip))
  (delete-overlay overlay))

(defun tdl--clear (from to)
  (dolist (it (overlays-in from (1+ to)))
    (when (and (overlay-get it 'tdl) (<= from (overlay-start it) to))
      (tdl--drop it))))

(defun tdl-clear ()
  "Take all that is shown behind lines away."
  (interactive)
  (tdl--clear (point-min) (point-max)))

(defun tdl--put-behind (line text)
  "Show TEXT behind LINE, where that still stands as it was."
  (let ((overlay (tdl--line-overlay line)))
    (when (and overlay (overlay-buffer overlay))
      ;; The cursor stays before it at the end of the line.
      (overlay-put overlay 'after-string (concat (propertize (substring text 0 1) 'cursor t) (substring text 1))))))

(defun tdl--show (line reply)
  "Show REPLY behind LINE and in the echo area.
Where LINE is refused, show its slip too."
  (let ((kind (tdl--kind reply)))
    (if (not kind)
        (tdl--put-behind line (propertize (concat "  " reply) 'face 'tdl-reply))
      (let* ((said (format "%s: %s" kind (tdl--sentence kind)))
             (column (tdl--mark-slip line (tdl--slip kind reply line)))
             (mark (if column (concat (make-string column ?\s) "^ ") "")))
        (tdl--put-behind line (propertize (concat "  " reply "\n" mark said) 'face 'tdl-refused))
        (setq reply (concat reply "  " said))))
    (message "%s%s" (if (tdl--line-overlay line) "" (concat (tdl--line-bytes line) ": ")) reply)))

(defun tdl--kind (reply)
  "The kind of a REPLY that refuses, or nil."
  (cond ((equal reply "no memory") reply)
        ((string-match "\\`refused \\(\\w+\\)" reply) (match-string 1 reply))))

(defun tdl--slip (kind reply line)
  "How many characters of LINE stand before its slip.
REPLY is of this KIND.  Nil where it names no byte."
  (when (and (not (equal kind "Full")) (string-match "\\`refused \\w+ \\([0-9]+\\)\\'" reply))
    (let ((at (string-to-number (match-string 1 reply)))
          (bytes (tdl--line-bytes line)))
      (and (<= at (length bytes))
           (length (decode-coding-string (substring bytes 0 at) (tdl--line-coding line)))))))

(defun tdl--mark-slip (line at)
  "Mark the character AT of LINE, and return its column.
Return nil where the line does not stand there any more."
  (let ((overlay (tdl--line-overlay line)))
    (when (and at overlay (overlay-buffer overlay))
      (with-current-buffer (overlay-buffer overlay)
        (save-excursion
          (goto-char (+ (overlay-start overlay) at))
          (unless (eolp)
            (let ((slip (make-overlay (point) (1+ (point)))))
              (overlay-put slip 'face 'tdl-slip)
              (overlay-put overlay 'tdl-slip slip)))
          (current-column))))))

(defvar tdl--sentences nil "What docs/GUIDE.md says of each kind of refusal.")

(defun tdl--read-sentences ()
  "Ask once what docs/GUIDE.md says of each kind of refusal."
  (when (and (not tdl--sentences) (file-executable-p tdl-explain))
    (let ((coding-system-for-read 'utf-8))
      (setq tdl--sentences
            (mapcar (lambda (row) (split-string row "\t")) (ignore-errors (process-lines tdl-explain "kinds")))))))

(defun tdl--sentence (kind)
  "What docs/GUIDE.md says of a KIND of refusal."
  (or (cadr (assoc kind tdl--sentences)) "see docs/GUIDE.md, \"Refusals\"."))

;;; The mode

(defconst tdl--lines
  '("hush" "jumpMod" "look" "mute" "silence" "solo" "unmute" "unmuteAll" "unsolo" "unsoloAll"))

(defconst tdl--functions
  '("brak" "cat" "const" "euclid" "euclidOff" "every" "every'" "fast" "fastcat" "id" "iter" "jux" "mask" "off"
    "palindrome" "ply" "rev" "rotL" "rotR" "segment" "slow" "stack" "struct" "superimpose" "timecat" "whenmod" "within"))

(defconst tdl--keys
  '("accelerate" "attack" "bandf" "begin" "channel" "crush" "cut" "cutoff" "delay" "end" "gain" "hold" "legato"
    "midichan" "n" "note" "pan" "release" "room" "s" "sound" "speed" "unit" "velocity" "vowel"))

(defconst tdl--chances
  '("almostAlways" "almostNever" "choose" "degrade" "degradeBy" "irand" "often" "rand" "randcat" "rarely" "scramble"
    "shuffle" "somecycles" "somecyclesBy" "sometimes" "sometimesBy" "unDegradeBy" "wchoose" "wrandcat")
  "Names that are refused, since nothing is chosen by chance.")

(defun tdl--names (names)
  "What matches NAMES."
  (concat "\\_<" (regexp-opt names t) "\\_>"))

(defun tdl--in-text (pattern)
  "What finds PATTERN in texts alone."
  (lambda (limit)
    (let (found)
      (while (and (not found) (re-search-forward pattern limit t))
        (setq found (save-match-data (save-excursion (nth 3 (syntax-ppss (match-beginning 0)))))))
      found)))

(defconst tdl--font-lock
  `((,(concat "\\_<d\\(?:1[0-6]\\|[1-9]\\)\\_>\\|" (tdl--names tdl--lines)) . font-lock-keyword-face)
    (,(tdl--names tdl--functions) . font-lock-function-name-face)
    (,(tdl--names tdl--keys) . font-lock-variable-name-face)
    (,(tdl--names tdl--chances) . font-lock-warning-face)
    ("\\_<[0-9]+\\(?:[.%][0-9]+\\)?" . font-lock-constant-face)
    ("|?[-+*]|?\\|[#$.]\\|<~\\|~>" . font-lock-builtin-face)
    (,(tdl--in-text "\\_<[0-9]+\\(?:[.%][0-9]+\\)?") 0 font-lock-constant-face prepend)
    (,(tdl--in-text "[][<>{}()*/!@_.,:%~]") 0 font-lock-builtin-face prepend)
    (,(tdl--in-text "[?|^]") 0 font-lock-warning-face prepend)))

(defun tdl--propertize (start end)
  "From START to END, let no quote open a text that does not end on its line."
  (goto-char start)
  (while (re-search-forward "--.*\\|\"\\([^\"\n]*\\)\\(\"\\)?" end t)
    (when (and (match-beginning 1) (not (match-beginning 2)))
      (put-text-property (match-beginning 0) (1+ (match-beginning 0)) 'syntax-table (string-to-syntax ".")))))

(defvar tdl-mode-syntax-table
  (let ((table (make-syntax-table)))
    (modify-syntax-entry ?- ". 12" table)
    (modify-syntax-entry ?\n ">" table)
    (modify-syntax-entry ?\" "\"" table)
    (modify-syntax-entry ?\\ "." table)
    (modify-syntax-entry ?' "_" table)
    (dolist (sign '(?# ?$ ?% ?* ?+ ?/ ?. ?< ?> ?| ?~ ?& ?=))
      (modify-syntax-entry sign "." table))
    table))

(defvar tdl-mode-map
  (let ((map (make-sparse-keymap)))
    (define-key map (kbd "C-c C-c") #'tdl-send-paragraph)
    (define-key map (kbd "C-c C-l") #'tdl-send-line)
    (define-key map (kbd "C-<return>") #'tdl-send-line)
    (define-key map (kbd "C-c C-r") #'tdl-send-region)
    (define-key map (kbd "C-c C-h") #'tdl-hush)
    (define-key map (kbd "<f9>") #'tdl-hush)
    (define-key map (kbd "C-c C-a") #'tdl-say)
    (define-key map (kbd "C-c C-s") #'tdl-connect)
    (define-key map (kbd "C-c C-q") #'tdl-leave)
    (define-key map (kbd "C-c C-k") #'tdl-clear)
    map))

;;;###autoload
(define-derived-mode tdl-mode prog-mode "tdl"
  "A file of performers' lines."
  (setq-local comment-start "-- "
              comment-start-skip "--[ \t]*"
              comment-end ""
              syntax-propertize-function #'tdl--propertize
              font-lock-defaults '(tdl--font-lock)))

;;;###autoload
(add-to-list 'auto-mode-alist '("\\.tdl\\'" . tdl-mode))

(provide 'tdl)

;;; tdl.el ends here
