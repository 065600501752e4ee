count
look
