#!/usr/bin/env bash
# explain.sh: says which refusals examples/explain.sh explains otherwise than is written here. It needs no program: each row has a text, the line of
# its refusal, and behind them what is to be told of it. It ends with 1 where one differs.
set -euo pipefail
cd "$(dirname "${BASH_SOURCE[0]}")/.."
work=$(mktemp -d)
trap 'rm -rf "$work"' EXIT
status=0

# told TEXT REFUSAL: TEXT has the escapes of printf. What is wanted is read; the name of the file is left out of it.
told() {
    local wanted came
    wanted=$(cat)
    printf '%b' "$1" >"$work/text"
    came=$(examples/explain.sh "$work/text" "$2" 2>&1 || true)
    came=${came//"$work/text:"/}
    if [ "$came" != "$wanted" ]; then
        printf 'explain: %s\nwanted:\n%s\ncame:\n%s\n' "$2" "$wanted" "$came" >&2
        status=1
    fi
}

told '(define-drag-and-drop-translator x)' 'refused 0 at 1' <<'END'
1:2: refused 0: something that is not built yet
(define-drag-and-drop-translator x)
 ^
END
told '; a
(define-display d ()
\t(write-text "a)
' 'refused 1 at 41' <<'END'
3:17: refused 1: a text that does not end on its line
	(write-text "a)
	               ^
END
told '; a\r\n(define-display d ()\r\n\t(write-text "a)\r\n' 'refused 1 at 43' <<'END'
3:17: refused 1: a text that does not end on its line
	(write-text "a)
	               ^
END
told '(define-display d ()
  \x01(newline))' 'refused 1 at 23' <<'END'
2:3: refused 1: a byte that is not allowed here
  ?(newline))
  ^
END
told '(define-display d ()
  (newline)
(define-function f () 1)
' 'refused 2 at 58' <<'END'
4:1: refused 2: the text ends inside of a form or of a text

^
1:1: most likely this form is not closed; another one begins in it at 3:1
(define-display d ()
^
END
told '(define-display d () (newline) (define-function f () 1)' 'refused 2 at 55' <<'END'
1:56: refused 2: the text ends inside of a form or of a text
(define-display d () (newline) (define-function f () 1)
                                                       ^
1:1: most likely this form is not closed; another one begins in it at 1:32
(define-display d () (newline) (define-function f () 1)
^
END
told '(define-function f ()
  (g "a"' 'refused 2 at 30' <<'END'
2:9: refused 2: the text ends inside of a form or of a text
  (g "a"
        ^
1:1: this form is not closed
(define-function f ()
^
END
told '(define-function f () "a' 'refused 2 at 24' <<'END'
1:25: refused 2: the text ends inside of a form or of a text
(define-function f () "a
                        ^
1:23: this text is not closed
(define-function f () "a
                      ^
END
told '(define-function f () "(\\"(") ; (
(define-function g () (+ 1 2)))' 'refused 2 at 64' <<'END'
2:31: refused 2: a ) too many
(define-function g () (+ 1 2)))
                              ^
END
told '((((((((((((((((((((((((((((((((((((((((((((((((((((((((((((((((((' 'refused 3 at 64' <<'END'
1:65: refused 3: forms nest deeper than 64
((((((((((((((((((((((((((((((((((((((((((((((((((((((((((((((((((
                                                                ^
END
told '\t(a 99999999999999999999)' 'refused 4 at 4' <<'END'
1:5: refused 4: a number outside of 64 bits with a sign
	(a 99999999999999999999)
	   ^
END
told '(define-display d ()
  (newline)
(define-function f () 1))' 'refused 5 at 34' <<'END'
3:2: refused 5: this symbol heads nothing here
(define-function f () 1))
 ^
1:1: most likely this form is not closed; another one begins in it at 3:1
(define-display d ()
^
END
told '(define-display d ()
  (write-text "\xc3\xa9") (newlines))' 'refused 5 at 42' <<'END'
2:22: refused 5: this symbol heads nothing here
  (write-text "é") (newlines))
                    ^
END
told '(define-display d ()
  (newline 1))' 'refused 6 at 23' <<'END'
2:3: refused 6: this form is wrong: what it is, how many parts it has, a part of it, or a key
  (newline 1))
  ^
END
told '(define-display d ())
(define-display d ())' 'refused 7 at 38' <<'END'
2:17: refused 7: this name stands twice in its space, or is kept for the language
(define-display d ())
                ^
END
told '(define-display d ()
  (write-text x))' 'refused 8 at 35' <<'END'
2:15: refused 8: this name is not declared
  (write-text x))
              ^
END
told '(define-presentation-type a () :inherit-from a)' 'refused 9 at 0' <<'END'
1:1: refused 9: user types or command tables in a ring; this is the first declaration on it
(define-presentation-type a () :inherit-from a)
^
END
told '(define-application-frame f (:size 9 1)
  (:slots (n integer (slot n))) (:panes (p 0 0 9 1 d)))(define-display d ())' 'refused 10 at 0' <<'END'
1:1: refused 10: an opening value, a default, an :else or a predicate of this declaration reads a slot
(define-application-frame f (:size 9 1)
^
END
told '(define-application-frame f (:size 9 1)
  (:slots (n integer 0)) (:panes (p 0 0 9 1 d)))
(define-display d ()
  (updating-output (:cache-value (list)) (write-text (text (slot n)))))' 'refused 11 at 112 path (slot n)' <<'END'
4:3: refused 11: the :cache-value of this form does not cover (slot n), which its body reads
  (updating-output (:cache-value (list)) (write-text (text (slot n)))))
  ^
END
told '(define-application-frame f (:size 9 1)
  (:slots (n integer true)) (:panes (p 0 0 9 1 d)))(define-display d ())' 'refused 12 at 61' <<'END'
2:22: refused 12: this value traps, or is not of its type
  (:slots (n integer true)) (:panes (p 0 0 9 1 d)))(define-display d ())
                     ^
END
told '(define-function f () '\''aaaaaaaaaaaaaaaaaaaaaaaaaaaaaaaaaaaaaaaaaaaaaaaaaaaaaaaaaaaaaaaaa)' 'refused 13 at 23' <<'END'
1:24: refused 13: one more than the limit, or too long
(define-function f () 'aaaaaaaaaaaaaaaaaaaaaaaaaaaaaaaaaaaaaaaaaaaaaaaaaaaaaaaaaaaaaaaaa)
                       ^
END
told '(define-display d ())
' 'refused 14 at 22' <<'END'
2:1: refused 14: there is no frame

^
END
told '(define-application-frame f (:size 9 1000)
  (:slots (n integer 0)) (:panes (p 0 0 9 1 d)))(define-display d ())' 'refused 15 at 0' <<'END'
1:1: refused 15: the screen is too large, or a side is below 1, or this pane leaves the screen or overlaps an earlier one
(define-application-frame f (:size 9 1000)
^
END
told '(define-application-frame f (:size 9 1)
  (:slots (n integer 0)) (:panes (p 0 0 9 1 d)))(define-display d ())(define-host-type year)' 'refused 16 at 109' <<'END'
2:70: refused 16: the program hands in no host type of this name
  (:slots (n integer 0)) (:panes (p 0 0 9 1 d)))(define-display d ())(define-host-type year)
                                                                     ^
END
exit "$status"
