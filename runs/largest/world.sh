#!/usr/bin/env bash
# The largest world, at each of its limits: eight endpoints, 4096 frames, four workers. By itself it writes the scenario; with the
# word `report` the report. Both come from the rules: each line says its step and its answer.
awk -v report="${1-}" '
  # one line: a step, and its answer
  function says(step, answer) { print report ? answer : step }

  # a line that sends so many messages; the number of the first
  function sends(step, answer, count,   first) { says(step, answer); first = sent; sent += count; return first }

  BEGIN {
    endpoints = 8; frames = 4096; workers = 4; sent = 0
    if (!report) print "config 8 4096 4"

    # 64 spaces live. Four of them have 1024 pages each, and so each frame is mapped.
    for (space = 0; space < 64; space++) says("space", "space " space)
    says("space", "refused 4 TooManySpaces")
    for (space = 0; space < 4; space++) {
      for (page = 0; page < 1024; page++) says("map " space " " page " w", "frame " space * 1024 + page)
      says("map " space " 1024 w", "refused 9 SpaceFull")
    }
    says("map 4 0 w", "refused 8 NoFrame")
    says("look 4095", "mapped")
    says("look 4096", "refused 8 NoFrame")

    # 256 bindings: 32 spaces at each endpoint, each under one PASID over all of them.
    for (space = 0; space < 32; space++)
      for (e = 0; e < endpoints; e++)
        start[space, e] = sends("bind " e " " space, "binding " space * 8 + e " pasid " space + 1, 1)
    says("bind 0 32", "refused 11 NoPasid")
    says("bind 7 31", "refused 10 AlreadyBound")
    says("bearer 32", "bearer 31 bindings 8")
    for (space = 0; space < 32; space++)
      for (e = 0; e < endpoints; e++) says("deliver " start[space, e], "started")

    # 32 request tags at each endpoint, twice over: then 64 translations are cached, and one more is not kept.
    for (round = 0; round < 2; round++) {
      for (e = 0; e < endpoints; e++) {
        for (tag = 0; tag < 32; tag++) request[e, tag] = sends("ask " e " 1 " round * 32 + tag, "tag " tag, 1)
        says("ask " e " 1 64", "refused 19 NoTag")
      }
      for (tag = 31; tag >= 0; tag--)
        for (e = 0; e < endpoints; e++) completion[e, tag] = sends("deliver " request[e, tag], "completion", 1)
      for (tag = 0; tag < 32; tag++)
        for (e = 0; e < endpoints; e++) says("deliver " completion[e, tag], "held")
    }
    for (e = 0; e < endpoints; e++) {
      asked = sends("ask " e " 1 64", "tag 0", 1)
      answered = sends("deliver " asked, "completion", 1)
      says("deliver " answered, "full")
    }

    # 16 uses run at each endpoint.
    for (e = 0; e < endpoints; e++) {
      for (slot = 0; slot < 16; slot++) says("use " e " 1 " slot " w", "use " slot " frame " slot)
      says("use " e " 1 16 w", "refused 22 NoUseSlot")
    }

    # 32 page requests at each endpoint, each a group of its own: 256 groups, and as many jobs, of which each worker holds one.
    for (e = 0; e < endpoints; e++) {
      for (group = 0; group < 32; group++)
        asking[e, group] = sends("fault " e " " group + 1 " " 2000 + group " r new last", "group " group, 1)
      says("fault " e " 1 2032 r new last", "refused 24 NoCredit")
    }
    for (group = 0; group < 32; group++)
      for (e = 0; e < endpoints; e++) says("deliver " asking[e, group], "queued")
    for (group = 0; group < 32; group++)
      for (e = 0; e < endpoints; e++) says("serve " e, "job")
    for (e = 0; e < endpoints; e++) says("serve " e, "empty")
    taken = 0
    for (job = 0; job < 256; job += 4) {
      for (w = 0; w < workers; w++) {
        group = int(taken / 8); e = taken % 8
        says("take " w, "job binding " group * 8 + e " group " group " pages 1")
        taken++
      }
      says("take 3", "refused 35 HandsFull")
      for (w = 3; w >= 0; w--) {
        group = int((job + w) / 8); e = (job + w) % 8
        response[e, group] = sends("answer " w " invalid", "invalid", 1)
      }
    }
    for (w = 0; w < workers; w++) says("take " w, "refused 36 NoJob")
    for (e = 0; e < endpoints; e++)
      for (group = 31; group >= 0; group--) says("deliver " response[e, group], "answered")

    # Each queue is full: 48 ranges and a wait, and 14 with theirs.
    answer = "withheld"; for (frame = 0; frame < 48; frame++) answer = answer " " frame
    says("unmap 0 0 48", answer)
    answer = "withheld"; for (frame = 48; frame < 62; frame++) answer = answer " " frame
    says("unmap 0 48 14", answer)
    says("unmap 0 62", "refused 16 QueueFull")

    # All ITags of all units are busy. Each invalidation is answered by eight completions: 2048 messages are in flight.
    for (tag = 0; tag < 32; tag++)
      for (e = 0; e < endpoints; e++) invalidate[e, tag] = sends("pump " e, "itag " tag, 1)
    for (e = 0; e < endpoints; e++) says("pump " e, "blocked")
    for (tag = 31; tag >= 0; tag--)
      for (e = 0; e < endpoints; e++) says("deliver " invalidate[e, tag], "taken")
    for (e = 0; e < endpoints; e++) {
      says("finish " e " 00000001 8", "refused 28 InUse")
      for (slot = 15; slot >= 0; slot--) says("end " e " " slot, "ended")
    }
    for (tag = 0; tag < 32; tag++)
      for (e = 0; e < endpoints; e++) done[e, tag] = sends(sprintf("finish %d %s 8", e, vector(tag)), "sent 8", 8)
    for (copy = 7; copy >= 0; copy--)
      for (tag = 0; tag < 32; tag++)
        for (e = 0; e < endpoints; e++) says("deliver " done[e, tag] + copy, copy ? "freed 0" : "freed 1")

    # The other 16 pages, and the wait behind them: the first 48 frames are free once the last unit has passed it.
    rest(16)
    for (e = 0; e < endpoints; e++) {
      says("look 0", "withheld")
      says("pump " e, "wait done")
    }
    says("look 0", "free")
    says("look 48", "withheld")
    rest(14)
    for (e = 0; e < endpoints; e++) says("pump " e, "wait done")
    for (e = 0; e < endpoints; e++) says("pump " e, "idle")
    says("unmap 0 62", "withheld 62")
    says("map 4 0 w", "frame 0")
    if (report) print "free " 62 - 1 " mapped " frames - 63 + 1 " withheld 1"
  }

  # so many invalidations of each unit, sent, taken, and answered by one completion each
  function rest(count,   tag, e, sentence) {
    for (tag = 0; tag < count; tag++)
      for (e = 0; e < endpoints; e++) invalidate[e, tag] = sends("pump " e, "itag " tag, 1)
    for (e = 0; e < endpoints; e++) says("pump " e, "blocked")
    for (e = 0; e < endpoints; e++)
      for (tag = 0; tag < count; tag++) says("deliver " invalidate[e, tag], "taken")
    for (e = 0; e < endpoints; e++) sentence[e] = sends(sprintf("finish %d %08x 1", e, 2 ^ count - 1), "sent 1", 1)
    for (e = 0; e < endpoints; e++) says("deliver " sentence[e], "freed " count)
  }

  # the vector of one ITag, eight hexadecimal digits
  function vector(tag) { return sprintf("%08x", 2 ^ tag) }
'
