-- A session of Ardour, in JACK, in which the plugin is the instrument of a MIDI track that monitors its input:
--   ardour7-lua ardour.lua SESSION PRESET
-- makes it with a preset of the plugin, and without PRESET loads it again. It makes the file SESSION.ready, and when
-- that is removed it saves the session and ends.
local folder, preset = arg[1], arg[2]
local PLUGIN, RATE, INPUT = "urn:sfbank:player", 44100, 1

local function track_of(session)
  local midi = ARDOUR.ChanCount(ARDOUR.DataType("midi"), 1)
  local stereo = ARDOUR.ChanCount(ARDOUR.DataType("audio"), 2)
  local tracks = session:new_midi_track(midi, stereo, true, ARDOUR.PluginInfo(), nil, nil, 1, "keys", 0,
                                        ARDOUR.TrackMode.Normal, true)
  for track in tracks:iter() do return track end
end

local function make()
  local session = create_session(folder, "session", RATE)
  local processor = ARDOUR.LuaAPI.new_plugin(session, PLUGIN, ARDOUR.PluginType.LV2, "")
  assert(not processor:isnil(), "no plugin")
  local plugin = processor:to_insert():plugin(0)
  assert(plugin:load_preset(plugin:preset_by_label(preset)), "no preset")
  local track = track_of(session)
  track:add_processor_by_index(processor, 0, nil, true)
  track:monitoring_control():set_value(INPUT, PBD.GroupControlDisposition.NoGroup)
  return session
end

AudioEngine:set_backend("JACK", "ardour", "")
local session = preset and make() or load_session(folder, "session")
local ready = folder .. ".ready"
io.open(ready, "w"):close()
repeat
  sleep(1)
  local file = io.open(ready)
  if file then file:close() end
until not file
session:save_state("")
