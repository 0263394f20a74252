-- What wrk sends: the method and the key are its words.
function init(words)
   wrk.method = words[1]
   wrk.headers["Party-Key"] = words[2]
   if wrk.method == "PUT" then wrk.body = string.rep("x", 1024) end
end
