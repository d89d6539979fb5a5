;; Prints, from Emacs's own calendar code, the line that the program `season` writes for each day from FIRST to LAST:
;;   emacs -Q --batch -l tools/emacs-dates.el --eval '(dates FIRST LAST)'
;; and for a year, by the first days of its months:
;;   emacs -Q --batch -l tools/emacs-dates.el --eval '(year "hebrew" 5774)'
;; Emacs's absolute dates are the day numbers used here: day 1 is 1 January of year 1.
(require 'calendar)
(require 'cal-coptic)
(require 'cal-islam)
(require 'cal-hebrew)

(defun hebrew-code (date)
  "The month code of an Emacs Hebrew DATE: Emacs counts from Nisan, codes count from Tishri, and Adar I is 5L."
  (let ((month (calendar-extract-month date))
        (leap (calendar-hebrew-leap-year-p (calendar-extract-year date))))
    (cond ((and leap (= month 12)) "05L")
          ((>= month 12) "06")
          ((>= month 7) (format "%02d" (- month 6)))
          (t (format "%02d" (+ month 6))))))

(defun plain-code (date)
  (format "%02d" (calendar-extract-month date)))

(defvar shelf
  `(("gregorian" calendar-gregorian-from-absolute plain-code)
    ("coptic" calendar-coptic-from-absolute plain-code)
    ("islamic-civil" calendar-islamic-from-absolute plain-code)
    ("hebrew" calendar-hebrew-from-absolute hebrew-code)))

(defun shown (date code)
  (format "%04d-%s-%02d" (calendar-extract-year date) code (calendar-extract-day date)))

(defun dates (first last)
  (let ((day first))
    (while (<= day last)
      (let ((office (calendar-gregorian-from-absolute day)))
        (princ (format "%04d%02d%02d %d %s" (calendar-extract-year office) (calendar-extract-month office)
                       (calendar-extract-day office) day (nth (% day 7) '("SU" "MO" "TU" "WE" "TH" "FR" "SA")))))
      (dolist (c shelf)
        (let ((date (funcall (nth 1 c) day)))
          (princ (format " %s %s" (car c) (shown date (funcall (nth 2 c) date))))))
      (princ "\n")
      (setq day (1+ day)))))

(defun year (name year)
  "The line of a year: its first day, and the code and length of each month, by looking at every day of the span."
  (let* ((c (assoc name shelf)) (day 693000) (first nil) (months nil))
    (while (<= day 804000)
      (let ((date (funcall (nth 1 c) day)))
        (when (= (calendar-extract-year date) year)
          (unless first (setq first day))
          (let ((code (funcall (nth 2 c) date)))
            (if (equal code (caar months)) (setcdr (car months) (1+ (cdar months))) (push (cons code 1) months)))))
      (setq day (1+ day)))
    (princ (format "%s %d first %d months" name year first))
    (dolist (m (nreverse months)) (princ (format " %s:%d" (car m) (cdr m))))
    (princ "\n")))
