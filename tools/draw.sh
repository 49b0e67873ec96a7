#!/bin/sh
# Draws a trace as an SVG picture.
#
#   tools/draw.sh TRACE > PICTURE.svg
#
# A lane for each site that did something, from top to bottom in the order of the trace, a row for each of its lines. A
# message is an arrow from its send to its take: a link gives first what was sent first, so which take belongs to which send
# follows from the lines. At most 200 lines and 16 lanes are drawn; where there are more, the picture says so.
set -u
rows=200
lanes=16
case ${1-} in
  --help | -h)
    cat <<END
tools/draw.sh TRACE > PICTURE.svg

Draws a trace, as \`ml5 ref\` writes it, as an SVG picture of 1,000 pixels' width: a lane for each site, an arrow for each
message, and a labelled mark for whatever else was done. A picture has the first $rows lines and, of these, the first
sessions that fit in $lanes lanes; where that is not all, it says so. docs/formats.md says what the lines of a trace mean.
END
    exit 0 ;;
esac
[ $# -eq 1 ] || { echo "usage: tools/draw.sh TRACE (tools/draw.sh --help says more)" >&2; exit 1; }
[ -e "$1" ] || { echo "draw: there is no file $1" >&2; exit 1; }
[ ! -d "$1" ] || { echo "draw: $1 is a folder, and no trace" >&2; exit 1; }
[ -r "$1" ] || { echo "draw: $1 cannot be read" >&2; exit 1; }

file=$1 LC_ALL=C exec awk -v most_rows="$rows" -v most_lanes="$lanes" '
  # Reading. Each line is read to the end, so that what is no trace is never drawn in part.
  BEGIN {
    file = ENVIRON["file"]
    split("say:home:1 set:home:2 text:home:2 on:home:1 event:home:2 write:server:2 watch:server:1 fire:server:1 show:panel:1", table, " ")
    for (i in table) { split(table[i], field, ":"); world_of[field[1]] = field[2]; texts_of[field[1]] = field[3] }
    for (i = split("home server panel", worlds, " "); i > 0; i--) rank[worlds[i]] = i
  }
  last != "" { refuse("has a line after its last one, which is \"" last "\"") }
  /^rest$/ || /^stopped [1-9][0-9]*$/ || /^wrong [1-9][0-9]* (home|server|panel) [0-9]+$/ { last = $0; next }
  !read_line($0) { refuse("is no line of a trace") }

  function refuse(why) {
    print "draw: " file ": line " FNR " " why > "/dev/stderr"
    failed = 1
    exit 1
  }

  # Takes a line apart, and keeps it if it is among those that are drawn. Whether it is one of a trace.
  function read_line(line,  word, rest, session, world, verb) {
    if (line ~ /[^ -~]/ || line !~ /^[1-9][0-9]* (home|server|panel) [a-z]/) return 0
    split(line, word, " ")
    session = word[1]; world = word[2]; verb = word[3]
    rest = substr(line, length(session) + length(world) + length(verb) + 3)
    first_text = second_text = ""
    if (verb == "send" || verb == "take") {
      if (rest !~ /^ (home|server|panel)$/ || word[4] == world) return 0
      if (verb == "take" && taken[session, word[4], world] >= sent[session, word[4], world]) refuse("takes a message that was never sent")
    } else if (verb == "stop") {
      if (rest !~ /^ (spent|region|table)$/) return 0
      stops++
    } else if (verb == "refuse") {
      if (rest != "") return 0
    } else if (verb == "read") {
      if (world != "server" || (rest = after_text(rest)) == "") return 0
      first_text = text_read
      if (rest == " none") second_text = "none"
      else if (after_text(rest) != "" || text_read == "") return 0
      else second_text = text_read
    } else {
      if (world_of[verb] != world) return 0
      rest = after_text(rest)
      if (text_read == "") return 0
      first_text = text_read
      if (texts_of[verb] == 2) {
        rest = after_text(rest)
        if (text_read == "") return 0
        second_text = text_read
      }
      if (rest != "") return 0
    }
    lines++
    keep(session, world, verb, word[4])
    return 1
  }

  # What comes after a blank and a text in quotes; the text is left in text_read, or nothing where there is none.
  function after_text(rest) {
    text_read = ""
    if (!match(rest, /^ "([^"\\]|\\["\\nt])*"/)) return ""
    text_read = substr(rest, 2, RLENGTH - 1)
    return substr(rest, RLENGTH + 1)
  }

  # Counts what goes along links, and keeps what is drawn of a line.
  function keep(session, world, verb, other,  number) {
    if (verb == "send") number = ++sent[session, world, other]
    if (verb == "take") number = ++taken[session, other, world]
    if (lines > most_rows) return
    session_at[lines] = session; world_at[lines] = world; verb_at[lines] = verb; other_at[lines] = other
    first_at[lines] = first_text; second_at[lines] = second_text
    if (verb == "send") sent_at[session, world, other, number] = lines
    if (verb == "take") { from_row[lines] = sent_at[session, other, world, number]; to_row[from_row[lines]] = lines }
    acts[session, world] = 1
    if (verb == "send") acts[session, other] = 1
    if (!(session in known)) { known[session] = 1; order[++sessions] = session }
  }

  END {
    if (failed) exit 1
    if (last == "") { FNR++; refuse("is missing: a trace ends with \"rest\", \"stopped N\" or \"wrong ..\"") }
    if (last ~ /^stopped/ ? substr(last, 9) != stops : last == "rest" && stops) refuse("tells another number of stops than the lines before it")
    place_lanes()
    place_rows()
    place_messages()
    draw()
  }

  # Which sessions are drawn, and where their lanes stand: whole sessions, in the order of their numbers.
  function place_lanes(  i, j, s, w, wide) {
    for (i = 2; i <= sessions; i++) {
      s = order[i]
      for (j = i - 1; j > 0 && order[j] + 0 > s + 0; j--) order[j + 1] = order[j]
      order[j + 1] = s
    }
    for (i = 1; i <= sessions; i++) {
      wide = 0
      for (w = 1; w <= 3; w++) wide += ((order[i], worlds[w]) in acts)
      if (count + wide > most_lanes) break
      shown++
      for (w = 1; w <= 3; w++) if ((order[i], worlds[w]) in acts) {
        lane[order[i], worlds[w]] = ++count
        lane_session[count] = order[i]; lane_world[count] = worlds[w]
      }
    }
    gap = count <= 4 ? 96 : count <= 6 ? 72 : count <= 9 ? 56 : 38
    left = 76
    width = 1000
    label_x = left + count * gap + 14
    room = int((width - 16 - label_x) / 7.4)
  }

  function x_of(i) { return left + (i - 0.5) * gap }

  # Which lines have a row.
  function place_rows(  i) {
    for (i = 1; i <= lines && i <= most_rows; i++) if ((session_at[i], world_at[i]) in lane) row[i] = ++drawn
  }

  # A message goes along the row of its send into the gap beside the lane that takes it, down there, and along the row of its
  # take; one that is never taken ends in the gap. A row has one mark alone, and no mark stands in a gap; each message that is
  # on its way has a track of its own there.
  function place_messages(  i, g, t) {
    for (i = 1; i <= lines && i <= most_rows; i++) if (i in row && verb_at[i] == "send") {
      g = gap_of(i)
      for (t = 1; busy[g, t] >= row[i]; t++) continue
      busy[g, t] = i in to_row ? row[to_row[i]] : row[i]
      track[i] = t
      if (t > tracks[g]) tracks[g] = t
    }
  }

  # The gap beside the lane to which a message goes, on its side: its number is that of the lane on its left.
  function gap_of(i,  from, to) {
    from = lane[session_at[i], world_at[i]]
    to = lane[session_at[i], other_at[i]]
    return from < to ? to - 1 : to
  }

  function track_x(i,  g, step) {
    g = gap_of(i)
    step = tracks[g] > 1 ? (gap - 22) / (tracks[g] - 1) : 0
    if (step > 9) step = 9
    return x_of(g) + gap / 2 + (track[i] - (tracks[g] + 1) / 2) * step
  }

  # Drawing.
  function draw(  i, top, bottom) {
    for (i = 1; i <= lines && i <= most_rows; i++) if (i in row) { seen[kind_of(i)] = 1; label[i] = label_of(i) }
    legend_rows()
    top = 76 + 20 * legend_lines + 18 * notes
    first_y = top + 62
    bottom = first_y + 20 * drawn - 6
    height = bottom + (drawn > 30 ? 84 : 46)
    head()
    for (i = 1; i <= notes; i++) print "<text class=\"note\" x=\"16\" y=\"" (58 + 20 * legend_lines + 18 * i) "\">" note[i] "</text>"
    lanes_from(top, bottom)
    for (i = 1; i <= lines && i <= most_rows; i++) if (i in row && label[i] != "") guide(i)
    for (i = 1; i <= lines && i <= most_rows; i++) if (i in row && verb_at[i] == "send") arrow(i)
    for (i = 1; i <= lines && i <= most_rows; i++) if (i in row) {
      print "<text class=\"number\" x=\"64\" y=\"" (y_of(i) + 4) "\">" i "</text>"
      if (label[i] != "") { mark(kind_of(i), x_at(i), y_of(i)); print "<text x=\"" label_x "\" y=\"" (y_of(i) + 4) "\">" label[i] "</text>" }
    }
    print "<text class=\"" (last == "rest" ? "end" : "end stop") "\" x=\"16\" y=\"" (height - 16) "\">" ending() "</text>"
    print "</svg>"
  }

  function y_of(i) { return first_y + 20 * (row[i] - 1) }
  function x_at(i) { return x_of(lane[session_at[i], world_at[i]]) }

  # What a line is drawn as: its shape, and whose colour it has.
  function kind_of(i,  verb) {
    verb = verb_at[i]
    if (verb == "send") return to_row[i] ? "message" : "waiting"
    if (verb == "take") return "message"
    if (verb == "event" || verb == "fire" || verb == "stop" || verb == "refuse") return verb
    return world_at[i]
  }

  # The words of a mark, with its texts as long as there is room.
  function label_of(i,  verb, one, two, left_over) {
    verb = verb_at[i]
    if (verb == "send" || verb == "take") return ""
    if (verb == "stop") return "<tspan class=\"verb stop\">stop</tspan> " other_at[i]
    if (verb == "refuse") return "<tspan class=\"verb stop\">refuse</tspan>"
    one = first_at[i]; two = second_at[i]
    left_over = room - length(verb) - (two == "" ? 1 : 2)
    if (two == "") one = shortened(one, left_over)
    else if (length(one) + length(two) > left_over) {
      if (length(one) <= left_over / 2) two = shortened(two, left_over - length(one))
      else if (length(two) <= left_over / 2) one = shortened(one, left_over - length(two))
      else { one = shortened(one, int(left_over / 2)); two = shortened(two, int(left_over / 2)) }
    }
    return "<tspan class=\"verb " world_at[i] "\">" verb "</tspan> " escaped(one) (two == "" ? "" : " " escaped(two))
  }

  # A text that fits, with a sign (byte 1, until it is escaped) where it was cut; an escape is not cut in two.
  function shortened(text, most,  i, unit) {
    if (length(text) <= most) return text
    for (i = 1; i < most; i += unit) {
      unit = substr(text, i, 1) == "\\" ? 2 : 1
      if (i + unit > most) break
    }
    has_cut = 1
    return substr(text, 1, i - 1) "\001"
  }

  function escaped(text) {
    gsub(/&/, "\\&amp;", text); gsub(/</, "\\&lt;", text); gsub(/>/, "\\&gt;", text)
    gsub(/\001/, "\\&#8230;", text)
    return text
  }

  # The legend has what stands in the picture; the notes say what does not.
  function legend_rows(  i, names, part, x, wide) {
    split("message:message, from its send to its take|waiting:sent, and not taken|home:call at a page|event:event of a page|server:call of the store|fire:trigger of the store|show:call at a panel|refuse:bytes refused|stop:the site stopped", names, "|")
    seen["show"] = seen["panel"]
    if (lines > most_rows) sub(/not taken/, "not taken in these lines", names[2])
    x = 16
    for (i = 1; i <= 9; i++) {
      split(names[i], part, ":")
      if (!seen[part[1]]) continue
      wide = 54 + 7.4 * length(part[2])
      if (legend_lines == 0) legend_lines = 1
      if (x + wide > width) { x = 16; legend_lines++ }
      legend_kind[++legend_count] = part[1] == "show" ? "panel" : part[1]
      legend_text[legend_count] = part[2]; legend_x[legend_count] = x; legend_y[legend_count] = 50 + 20 * legend_lines
      x += wide
    }
    if (lines > most_rows) note[++notes] = "Cut: the first " most_rows " of " lines " lines are drawn."
    if (shown < sessions) note[++notes] = "Cut: the first " shown " of the " sessions " sessions of these lines are drawn."
    if (has_cut) note[++notes] = "&#8230; a text goes on here, for which there is no room."
  }

  function head(  i, name, who) {
    name = file
    sub(/\/+$/, "", name); sub(/.*\//, "", name); gsub(/[^ -~]/, "?", name)
    name = escaped(shortened(name, 80))
    who = lines (lines == 1 ? " line" : " lines") ", " sessions (sessions == 1 ? " session" : " sessions") ", " last
    if (lines > most_rows) who = lines " lines, " last
    print "<svg xmlns=\"http://www.w3.org/2000/svg\" width=\"" width "\" height=\"" height "\" viewBox=\"0 0 " width " " height "\" role=\"img\" xml:space=\"preserve\">"
    print "<title>" name ": " who "</title>"
    print "<style>"
    print "text { font: 12px ui-monospace, Menlo, Consolas, \"DejaVu Sans Mono\", \"Liberation Mono\", monospace }"
    print ".name { font-size: 16px; font-weight: bold } .verb, .end, .session { font-weight: bold }"
    print ".number, .small { font-size: 10px } .number, .side { text-anchor: end } .session, .world { text-anchor: middle }"
    print ".lane { stroke-width: 2 } .arrow, .guide { fill: none } .arrow { stroke-width: 1.4 } .waiting { stroke-dasharray: 4 3 }"
    print ".guide { stroke-dasharray: 2 3 } .mark { stroke-width: 1.5 } .cross { fill: none; stroke-width: 2.5 }"
    colours("")
    print "@media (prefers-color-scheme: dark) {"
    colours("dark")
    print "}"
    print "</style>"
    print "<rect class=\"page\" width=\"" width "\" height=\"" height "\"/>"
    print "<text class=\"name\" x=\"16\" y=\"28\">" name "</text>"
    print "<text class=\"faint\" x=\"16\" y=\"48\">" who "</text>"
    for (i = 1; i <= legend_count; i++) {
      sample(legend_kind[i], legend_x[i], legend_y[i] - 4)
      print "<text x=\"" (legend_x[i] + 30) "\" y=\"" legend_y[i] "\">" legend_text[i] "</text>"
    }
  }

  # The colours of a light page, or of a dark one. The picture has a ground of its own, so it can be read on either.
  function colours(page,  part, value, i) {
    split("ground text faint line band home server panel stop arrow", part, " ")
    split(page == "dark" ? "#0d1117 #e6edf3 #9da7b3 #3d444d #161c24 #58a6ff #3fb950 #bc8cff #ff6b61 #c2cad3" \
      : "#ffffff #1f2328 #59636e #c4ccd4 #f3f5f8 #0860ca #1a7f37 #7c3aed #cf222e #424a53", value, " ")
    for (i = 1; i <= 10; i++) colour[part[i]] = value[i]
    print ".page { fill: " colour["ground"] " } text { fill: " colour["text"] " } .faint, .number, .side, .note { fill: " colour["faint"] " }"
    print ".band { fill: " colour["band"] " } .lane, .guide { stroke: " colour["line"] " } .mark { stroke: " colour["ground"] " }"
    print ".arrow { stroke: " colour["arrow"] " } .head, .tail { fill: " colour["arrow"] " } .open { stroke: " colour["arrow"] "; fill: " colour["ground"] " }"
    for (i = 6; i <= 9; i++) print "." part[i] " { fill: " value[i] " }"
    print ".cross { stroke: " colour["stop"] "; fill: none }"
  }

  # The heads of the lanes, the lanes, and bands that part the sessions.
  function lanes_from(top, bottom,  i, j, small) {
    if (count == 0) return
    small = count > 9 ? " small" : ""
    for (i = 1; i <= count; i = j) {
      for (j = i; j <= count && lane_session[j] == lane_session[i]; j++) continue
      if (++band % 2) print "<rect class=\"band\" x=\"" (left + (i - 1) * gap) "\" y=\"" top "\" width=\"" (j - i) * gap "\" height=\"" (bottom + (drawn > 30 ? 46 : 6) - top) "\"/>"
      heads(i, j, top + 16, top + 34, small)
      if (drawn > 30) heads(i, j, bottom + 38, bottom + 20, small)
    }
    print "<text class=\"side\" x=\"64\" y=\"" (top + 16) "\">session</text>"
    print "<text class=\"side\" x=\"64\" y=\"" (top + 34) "\">line</text>"
    for (i = 1; i <= count; i++) {
      end_of[i] = bottom
      for (j = 1; j <= lines && j <= most_rows; j++) if (j in row && verb_at[j] == "stop" && lane[session_at[j], world_at[j]] == i) end_of[i] = y_of(j)
      print "<path class=\"lane\" d=\"M" x_of(i) " " (top + 42) "V" end_of[i] "\"/>"
    }
  }

  function heads(from, after, session_y, world_y, small,  i) {
    print "<text class=\"session\" x=\"" (x_of(from) + x_of(after - 1)) / 2 "\" y=\"" session_y "\">" lane_session[from] "</text>"
    for (i = from; i < after; i++) print "<text class=\"world" small " " lane_world[i] "\" x=\"" x_of(i) "\" y=\"" world_y "\">" lane_world[i] "</text>"
  }

  function guide(i) { print "<path class=\"guide\" d=\"M" (x_at(i) + 10) " " y_of(i) "H" (label_x - 6) "\"/>" }

  # An arrow from a send to its take, or to where nothing took it.
  function arrow(i,  x, y, to, side, turn, end, bend) {
    x = x_at(i); y = y_of(i)
    to = x_of(lane[session_at[i], other_at[i]])
    side = to > x ? 1 : -1
    turn = track_x(i)
    if (!to_row[i]) { waiting(x, y, turn); return }
    end = y_of(to_row[i])
    bend = 6
    print "<path class=\"arrow\" d=\"M" x " " y "H" (turn - side * bend) "q" (side * bend) " 0 " (side * bend) " " bend "V" (end - bend) "q0 " bend " " (side * bend) " " bend "H" (to - side * 7) "\"/>"
    print "<circle class=\"tail\" cx=\"" x "\" cy=\"" y "\" r=\"3\"/>"
    head_at(to - side, end, side)
  }

  function waiting(x, y, to) {
    print "<path class=\"arrow waiting\" d=\"M" x " " y "H" to "\"/><circle class=\"tail\" cx=\"" x "\" cy=\"" y "\" r=\"3\"/>"
    print "<circle class=\"open\" cx=\"" to "\" cy=\"" y "\" r=\"3.5\"/>"
  }

  function head_at(x, y, side) {
    print "<path class=\"head\" d=\"M" x " " y "l" (-8 * side) " -4v8z\"/>"
  }

  # The sign of a kind at a place.
  function mark(kind, x, y) {
    if (kind == "stop") print "<path class=\"mark stop\" d=\"M" (x - 3) " " (y - 7) "h6l4 4v6l-4 4h-6l-4 -4v-6z\"/>"
    else if (kind == "refuse") print "<path class=\"cross\" d=\"M" (x - 5) " " (y - 5) "l10 10m0 -10l-10 10\"/>"
    else if (kind == "event" || kind == "fire") print "<path class=\"mark " (kind == "event" ? "home" : "server") "\" d=\"M" x " " (y - 7) "l7 7l-7 7l-7 -7z\"/>"
    else if (kind == "server") print "<rect class=\"mark server\" x=\"" (x - 6) "\" y=\"" (y - 6) "\" width=\"12\" height=\"12\"/>"
    else print "<circle class=\"mark " kind "\" cx=\"" x "\" cy=\"" y "\" r=\"6\"/>"
  }

  # The sign of a kind in the legend.
  function sample(kind, x, y) {
    if (kind == "waiting") waiting(x + 2, y, x + 18)
    else if (kind == "message") {
      print "<path class=\"arrow\" d=\"M" (x + 2) " " y "h14\"/><circle class=\"tail\" cx=\"" (x + 2) "\" cy=\"" y "\" r=\"3\"/>"
      head_at(x + 21, y, 1)
    } else mark(kind, x + 10, y)
  }

  function ending() {
    if (lines > most_rows) return "Here the picture is cut: " (lines - most_rows) " lines more, and then " last "."
    if (last == "rest") return "rest: every site came to rest"
    if (last ~ /^stopped/) return last ": so many sites stopped, the others came to rest"
    return last ": a machine went wrong"
  }
' < "$1"
